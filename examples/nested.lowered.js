var _ref, _a;
x = (_ref = (_a = a) !== null && _a !== void 0 ? _a : b) !== null && _ref !== void 0 ? _ref : c;
