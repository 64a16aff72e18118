// Each WebSocket's messages are lines of its program, and what is sent is a line of its input.
function show(id, text, kind) {
    const item = document.createElement("li");
    item.textContent = text;
    item.className = kind;
    document.getElementById(id).append(item);
    item.scrollIntoView({ block: "nearest" });
}

function listen(path, id) {
    const socket = new WebSocket(location.origin.replace(/^http/, "ws") + path);
    socket.onmessage = (event) => show(id, event.data, "line");
    socket.onclose = () => show(id, "The program has ended.", "closed");
    return socket;
}

listen("/page/lines", "lines");
const answers = listen("/page/echo", "answers");

document.getElementById("form").onsubmit = (event) => {
    const input = document.getElementById("text");
    answers.send(input.value);
    input.value = "";
    event.preventDefault();
};
