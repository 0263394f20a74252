// Node's http server over a map from targets to bodies. It prints its port.
const http = require("http");
const bodies = new Map();

const server = http.createServer((request, response) => {
  if (request.method === "GET") {
    const body = bodies.get(request.url);
    response.writeHead(body ? 200 : 404, { "Content-Type": "application/octet-stream", "Content-Length": body ? body.length : 0 });
    response.end(body);
    return;
  }
  const pieces = [];
  request.on("data", (piece) => pieces.push(piece));
  request.on("end", () => {
    bodies.set(request.url, Buffer.concat(pieces));
    response.writeHead(204);
    response.end();
  });
});
server.listen(0, "127.0.0.1", () => console.log(server.address().port));
