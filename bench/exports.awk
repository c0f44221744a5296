# Prints the tree of a module of n statements `export const { aI, ...bI } = c;`, or, with one=1, of one such statement with n declarators.
function name(text) { return "{\"type\":\"Identifier\",\"name\":\"" text "\"}" }
function declarator(i) {
  property = "{\"type\":\"Property\",\"shorthand\":true,\"key\":" name("a" i) ",\"value\":" name("a" i) "}"
  pattern = "{\"type\":\"ObjectPattern\",\"properties\":[" property ",{\"type\":\"RestElement\",\"argument\":" name("b" i) "}]}"
  return "{\"type\":\"VariableDeclarator\",\"id\":" pattern ",\"init\":" name("c") "}"
}
function exported(declarators) {
  return "{\"type\":\"ExportNamedDeclaration\",\"declaration\":{\"type\":\"VariableDeclaration\",\"kind\":\"const\",\"declarations\":[" declarators "]}}"
}
BEGIN {
  printf "{\"type\":\"Program\",\"sourceType\":\"module\",\"body\":["
  if (one) {
    for (i = 0; i < n; i++) declarators = declarators (i ? "," : "") declarator(i)
    printf "%s", exported(declarators)
  } else {
    for (i = 0; i < n; i++) printf "%s%s", (i ? "," : ""), exported(declarator(i))
  }
  printf "]}\n"
}
