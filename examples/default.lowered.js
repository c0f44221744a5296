var _object$foo;
foo = (_object$foo = object.foo) !== null && _object$foo !== void 0 ? _object$foo : "default";
