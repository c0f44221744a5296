# Prints the tree of a script of n statements `const { aI, [k]: bI, ...cI } = d;`, or, with one=1, of one such statement with n computed keys.
function name(text) { return "{\"type\":\"Identifier\",\"name\":\"" text "\"}" }
function plain(target) { return "{\"type\":\"Property\",\"shorthand\":true,\"key\":" name(target) ",\"value\":" name(target) "}" }
function keyed(target) { return "{\"type\":\"Property\",\"computed\":true,\"key\":" name("k") ",\"value\":" name(target) "}" }
function declared(properties, rest) {
  pattern = "{\"type\":\"ObjectPattern\",\"properties\":[" properties ",{\"type\":\"RestElement\",\"argument\":" name(rest) "}]}"
  return "{\"type\":\"VariableDeclaration\",\"kind\":\"const\",\"declarations\":[{\"type\":\"VariableDeclarator\",\"id\":" pattern ",\"init\":" name("d") "}]}"
}
BEGIN {
  printf "{\"type\":\"Program\",\"sourceType\":\"script\",\"body\":["
  if (one) {
    for (i = 0; i < n; i++) properties = properties (i ? "," : "") keyed("b" i)
    printf "%s", declared(properties, "c")
  } else {
    for (i = 0; i < n; i++) printf "%s%s", (i ? "," : ""), declared(plain("a" i) "," keyed("b" i), "c" i)
  }
  printf "]}\n"
}
