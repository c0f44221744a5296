# Prints the tree of a script of n functions `function fI({ a, ...b }) { g(b); }`, or, with one=1, of one such function with n statements
# `g(b);` in its body.
function name(text) { return "{\"type\":\"Identifier\",\"name\":\"" text "\"}" }
function declared(target, body) {
  return "{\"type\":\"FunctionDeclaration\",\"id\":" name(target) ",\"params\":[" pattern "],\"body\":{\"type\":\"FunctionBody\",\"body\":[" body "]}}"
}
BEGIN {
  property = "{\"type\":\"Property\",\"shorthand\":true,\"key\":" name("a") ",\"value\":" name("a") "}"
  pattern = "{\"type\":\"ObjectPattern\",\"properties\":[" property ",{\"type\":\"RestElement\",\"argument\":" name("b") "}]}"
  call = "{\"type\":\"ExpressionStatement\",\"expression\":{\"type\":\"CallExpression\",\"callee\":" name("g") ",\"arguments\":[" name("b") "]}}"
  printf "{\"type\":\"Program\",\"sourceType\":\"script\",\"body\":["
  if (one) {
    for (i = 0; i < n; i++) body = body (i ? "," : "") call
    printf "%s", declared("f", body)
  } else {
    for (i = 0; i < n; i++) printf "%s%s", (i ? "," : ""), declared("f" i, call)
  }
  printf "]}\n"
}
