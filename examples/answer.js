#!/usr/bin/node
// A WebSocket's program in node: each line is a message. See docs/recipes.md.
require("readline")
    .createInterface({ input: process.stdin })
    .on("line", (line) => console.log(line.toUpperCase()));
