"use strict";
// What is selected, over the picture: the message's line, its object's dot, and the arrow to its answer.

// Clips to the part right of the names.
function clipped(pen, view, y, height, draw) {
    pen.save();
    pen.beginPath();
    pen.rect(view.left, y, view.inner, height);
    pen.clip();
    draw();
    pen.restore();
}

function drawDot(pen, at, view, colours, colour) {
    if (at && at.x >= view.left - 1 && at.x <= view.right + 1) {
        pen.fillStyle = colour;
        pen.strokeStyle = colours.ground;
        pen.lineWidth = 1.5;
        pen.beginPath();
        pen.arc(at.x, at.y, 4.5, 0, 7);
        pen.fill();
        pen.stroke();
    }
}

// From a question to its answer.
function drawArrow(pen, from, to, colour) {
    const middle = (from.x + to.x) / 2, bend = from.y === to.y ? 24 : 0;
    const top = Math.min(from.y, to.y) - bend;
    const angle = Math.atan2(to.y - top, to.x - middle || 1);
    pen.strokeStyle = pen.fillStyle = colour;
    pen.lineWidth = 1.5;
    pen.beginPath();
    pen.moveTo(from.x, from.y);
    pen.quadraticCurveTo(middle, top, to.x, to.y);
    pen.stroke();
    pen.translate(to.x, to.y);
    pen.rotate(angle);
    pen.beginPath();
    pen.moveTo(0, 0);
    pen.lineTo(-8, -4);
    pen.lineTo(-8, 4);
    pen.fill();
}

function drawSelection(app, pen, top, height) {
    const { session, view, colours, layout, selected } = app;
    const place = (message) => {
        const row = layout.rowOf.get(session.objects[session.object[message]]);
        return row && { x: view.xOf(message), y: row.y + row.above - top + (row.steps ? 24 : 10) };
    };
    const mark = (message, colour, wide) => {
        if (view.isSeen(message)) {
            pen.fillStyle = colour;
            pen.fillRect(view.xOf(message) - wide / 2, 0, wide, height);
            drawDot(pen, place(message), view, colours, colour);
        }
    };
    if (session.trouble >= 0) {
        mark(session.trouble, colours.bad, 1.5);
    }
    if (selected < 0) {
        return;
    }
    const other = session.answer[selected] >= 0 ? session.answer[selected] : session.question[selected];
    const [from, to] = [selected, other].sort((a, b) => a - b);
    mark(selected, selected === session.trouble ? colours.bad : colours.request, 1);
    if (other >= 0 && place(from) && place(to)) {
        clipped(pen, view, 0, height, () => drawArrow(pen, place(from), place(to), colours.text));
    }
}
