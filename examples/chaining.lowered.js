var _user$tags, _user$rename;
const user = load();
show(user === null || user === void 0 ? void 0 : user.name, ((_user$tags = user.tags) === null || _user$tags === void 0 ? void 0 : _user$tags.first.bind(_user$tags))(0));
(_user$rename = user.rename) === null || _user$rename === void 0 ? void 0 : _user$rename.call(user, "Ada");
user === null || user === void 0 ? true : delete user.cache.old;
