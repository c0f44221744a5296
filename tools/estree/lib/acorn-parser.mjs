// acorn, extended by what it doesn't read: `using`, import attributes where it has none, functions at the top of static blocks
// beside others of their name, and, for programs that show them, early errors. It is extended as its plugins do it, by methods of its parser.

/** The parser class of this acorn; with `mayBeInvalid` one that goes on at early errors. */
export function extendedParser(acorn, { mayBeInvalid = false } = {}) {
  const { Parser, tokTypes } = acorn;
  const parser = Parser.extend(parent => withUsing(parent, tokTypes), parent => withAttributes(parent, tokTypes), withFunctionsInStaticBlocks);
  return mayBeInvalid ? parser.extend(parent => goingOn(parent, tokTypes)) : parser;
}

/**
 * `using NAME`, on one line, is read as `let NAME` would be. As an early error it is refused without a value, in a `for-in`
 * and at a script's top (Explicit Resource Management, 14.2 and 14.3).
 */
function withUsing(parent, tokTypes) {
  return class extends parent {
    isLet(context) {
      return super.isLet(context) || (!context && this.beginsUsing());
    }

    beginsUsing() {
      const word = this.input.slice(this.start, this.end);
      return word === 'using' && this.type === tokTypes.name
        && /^(?:[^\S\n\r\u2028\u2029]|\/\*[^\n\r\u2028\u2029]*?\*\/)+(?!(?:in|of|instanceof)\b)[\p{ID_Start}$_]/u.test(this.input.slice(this.end));
    }

    parseVar(node, isFor, kind) {
      if (!/^using\b/.test(this.input.slice(node.start)) || kind !== 'let') return super.parseVar(node, isFor, kind);
      if (!isFor && this.scopeStack.length === 1 && !this.inModule) this.raise(node.start, 'using at the top of a script');
      super.parseVar(node, isFor, this.goesOn ? 'let' : 'const');
      if (isFor && this.type === tokTypes._in) this.raise(node.start, 'using in a for-in');
      node.kind = 'using';
      return node;
    }
  };
}

/** Attributes stand before the end of an import or export with a source. */
function withAttributes(parent, tokTypes) {
  return class extends parent {
    parseImport(node) {
      return this.withItem(node, () => super.parseImport(node));
    }

    parseExport(node, exports) {
      return this.withItem(node, () => super.parseExport(node, exports));
    }

    withItem(node, parse) {
      const outer = this.moduleItem;
      this.moduleItem = node;
      try { return parse(); } finally { this.moduleItem = outer; }
    }

    semicolon() {
      if (this.type === tokTypes._with && this.moduleItem?.source) this.moduleItem.attributes = this.parseAttributes();
      return super.semicolon();
    }

    parseAttributes() {
      this.next();
      this.expect(tokTypes.braceL);
      const attributes = [];
      while (!this.eat(tokTypes.braceR)) {
        if (attributes.length > 0) {
          this.expect(tokTypes.comma);
          if (this.eat(tokTypes.braceR)) break;
        }
        attributes.push(this.parseAttribute());
      }
      return attributes;
    }

    parseAttribute() {
      const node = this.startNode();
      node.key = this.type === tokTypes.string ? this.parseExprAtom() : this.parseIdent(true);
      this.expect(tokTypes.colon);
      if (this.type !== tokTypes.string) this.unexpected();
      node.value = this.parseExprAtom();
      return this.finishNode(node, 'ImportAttribute');
    }
  };
}

/** A function at the top of a static block is declared as by `var` (ECMA-262, 15.7.1), and not as in a block. */
function withFunctionsInStaticBlocks(parent) {
  return class extends parent {
    treatFunctionsAsVarInScope(scope) {
      return super.treatFunctionsAsVarInScope(scope) || (this.inClassStaticBlock && scope === this.currentVarScope());
    }
  };
}

/** What acorn says of the early errors that the tree form can show, beside those that it counts as recoverable. */
const EARLY_ERRORS = new RegExp(`^(?:${[
  'Unsyntactic ', 'Label ', '\'return\' outside', '\'super\' keyword', 'super\\(\\) call', '(?:Assigning to|Binding) rvalue',
  'Complex binding patterns', 'for-(?:in|of) loop variable', '\'import\' and \'export\' may', 'Duplicate constructor', 'Constructor can\'t have',
  'A string literal cannot be used', 'Private field', 'Classes ', 'using ',
].join('|')})`);

/** A parser that goes on at early errors, and reads what it else counts as unexpected for one. */
function goingOn(parent, tokTypes) {
  return class extends parent {
    get goesOn() { return true; }

    raise(position, message) {
      const isMisplacedRest = message === 'Unexpected token' && !this.isUnexpected;
      if (!isMisplacedRest && !EARLY_ERRORS.test(message)) super.raise(position, message);
    }

    raiseRecoverable() {}

    unexpected(position) {
      this.isUnexpected = true;
      super.unexpected(position);
    }

    /** A declaration as the body of a statement. */
    parseStatement(context, topLevel, exports) {
      const declares = this.isLet() || this.type === tokTypes._const || this.type === tokTypes._class;
      return super.parseStatement(declares ? null : context, topLevel, exports);
    }

    /** A constant without a value. */
    parseVar(node, isFor, kind) {
      super.parseVar(node, isFor, kind === 'const' ? 'let' : kind);
      if (kind === 'const') node.kind = kind;
      return node;
    }

    /** A getter or setter that is called `constructor`. */
    parseClassMethod(method, ...words) {
      const [word] = this.input.slice(method.start, method.key.start).match(/^(?:get|set)\b/) ?? [];
      if (word) method.kind = word;
      return super.parseClassMethod(method, ...words);
    }

    /** `super` behind which neither a member nor arguments stand. */
    parseExprAtom(...words) {
      if (this.type !== tokTypes._super) return super.parseExprAtom(...words);
      const node = this.startNode();
      this.next();
      return this.finishNode(node, 'Super');
    }

    /** A private name as the key of an object's property. */
    parsePropertyName(property) {
      if (this.type !== tokTypes.privateId) return super.parsePropertyName(property);
      property.computed = false;
      property.key = this.parsePrivateIdent();
      return property.key;
    }
  };
}
