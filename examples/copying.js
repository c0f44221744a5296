copying: {
  using source = open("in.txt"), target = open("out.txt", "w");
  for (const line of source) {
    if (line === "") break copying;
    target.write(line);
  }
}
