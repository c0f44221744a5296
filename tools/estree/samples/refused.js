async function f() {} // 1:1: FunctionDeclaration: async has no form in the tree
a; x = function* () {}; // 1:8: FunctionExpression: generator has no form in the tree
x = async () => a; // 1:5: ArrowFunctionExpression: async has no form in the tree
({ async a() {} }); // 1:11: FunctionExpression: async has no form in the tree
x = import("a"); // 1:5: ImportExpression: ImportExpression has no form in the tree
a("\ud800"); // 1:3: Literal: value is no text of Unicode scalar values
a = ; // 1:5: Unexpected token
