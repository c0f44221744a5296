const user = load();
show(user?.name, (user.tags?.first)(0));
user.rename?.("Ada");
delete user?.cache.old;
