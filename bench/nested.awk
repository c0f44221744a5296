# Prints the tree of a script of n statements `const { a: { bI, ...cI }, dI } = e;`, or, with one=1, of one such statement with n patterns in properties.
function name(text) { return "{\"type\":\"Identifier\",\"name\":\"" text "\"}" }
function property(key, value) { return "{\"type\":\"Property\",\"key\":" name(key) ",\"value\":" value "}" }
function plain(target) { return "{\"type\":\"Property\",\"shorthand\":true,\"key\":" name(target) ",\"value\":" name(target) "}" }
function pattern(members) { return "{\"type\":\"ObjectPattern\",\"properties\":[" members "]}" }
function rest(target) { return "{\"type\":\"RestElement\",\"argument\":" name(target) "}" }
function declared(members) { return "{\"type\":\"VariableDeclaration\",\"kind\":\"const\",\"declarations\":[{\"type\":\"VariableDeclarator\",\"id\":" pattern(members) ",\"init\":" name("e") "}]}" }
BEGIN {
  printf "{\"type\":\"Program\",\"sourceType\":\"script\",\"body\":["
  if (one) {
    for (i = 0; i < n; i++) members = members (i ? "," : "") property("a", pattern(rest("c" i)))
    printf "%s", declared(members)
  } else {
    for (i = 0; i < n; i++) printf "%s%s", (i ? "," : ""), declared(property("a", pattern(plain("b" i) "," rest("c" i))) "," plain("d" i))
  }
  printf "]}\n"
}
