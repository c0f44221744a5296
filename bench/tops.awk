# Prints the tree of a module `using a = b;` with n statements `export const vI = c;` behind it, or, with one=1, with one such statement of n
# declarators.
function name(text) { return "{\"type\":\"Identifier\",\"name\":\"" text "\"}" }
function declarator(target, value) { return "{\"type\":\"VariableDeclarator\",\"id\":" name(target) ",\"init\":" name(value) "}" }
function declared(word, declarators) { return "{\"type\":\"VariableDeclaration\",\"kind\":\"" word "\",\"declarations\":[" declarators "]}" }
function exported(declarators) { return ",{\"type\":\"ExportNamedDeclaration\",\"declaration\":" declared("const", declarators) "}" }
BEGIN {
  printf "{\"type\":\"Program\",\"sourceType\":\"module\",\"body\":[%s", declared("using", declarator("a", "b"))
  if (one) {
    for (i = 0; i < n; i++) declarators = declarators (i ? "," : "") declarator("v" i, "c")
    printf "%s", exported(declarators)
  } else {
    for (i = 0; i < n; i++) printf "%s", exported(declarator("v" i, "c"))
  }
  printf "]}\n"
}
