# Prints the tree of a script of n functions `function fI() { using a = b; c(a); }`, or, with one=1, of one such function with n declarations
# `using aI = b;` in its body.
function name(text) { return "{\"type\":\"Identifier\",\"name\":\"" text "\"}" }
function used(text) { return "{\"type\":\"VariableDeclaration\",\"kind\":\"using\",\"declarations\":[{\"type\":\"VariableDeclarator\",\"id\":" name(text) ",\"init\":" name("b") "}]}" }
function declared(target, body) { return "{\"type\":\"FunctionDeclaration\",\"id\":" name(target) ",\"body\":{\"type\":\"FunctionBody\",\"body\":[" body "]}}" }
BEGIN {
  call = "{\"type\":\"ExpressionStatement\",\"expression\":{\"type\":\"CallExpression\",\"callee\":" name("c") ",\"arguments\":[" name("a") "]}}"
  printf "{\"type\":\"Program\",\"sourceType\":\"script\",\"body\":["
  if (one) {
    for (i = 0; i < n; i++) body = body (i ? "," : "") used("a" i)
    printf "%s", declared("f", body)
  } else {
    for (i = 0; i < n; i++) printf "%s%s", (i ? "," : ""), declared("f" i, used("a") "," call)
  }
  printf "]}\n"
}
