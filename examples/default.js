foo = object.foo ?? "default";
