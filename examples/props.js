const Link = ({ to, label = to, ...props }) => h("a", { ...props, href: to }, label);

function visit(pages, { depth = 1, ...options } = {}) {
  for (const { url, ...meta } of pages) {
    try {
      load(url, depth, meta, options);
    } catch ({ message, ...details }) {
      report(message, details);
    }
  }
}
