"use strict";
// The names of the picture's rows: beside their bars, or above them where the picture is narrow.

const LABEL = {
    heading: `600 11px ${FONT}`, wait: `11.5px ${FONT}`, small: `10px ${FONT}`,
    name: `11px ${MONO}`, id: `10px ${MONO}`,
};

// Writes a text on a row, unless the edge of the picture would cut it.
function writeWhole(drawing, text, x, y, colour, font, align = "left") {
    if (y >= 9 && y <= drawing.height - 3) {
        write(drawing.pen, text, x, y, colour, font, align);
    }
}

function widthOf(pen, text, font) {
    pen.font = font;
    return pen.measureText(text).width;
}

function drawHeading(drawing, row, y) {
    const { pen, app: { colours, view } } = drawing, x = view.isNarrow ? view.left : 14;
    pen.fillStyle = colours.ground;
    pen.fillRect(0, y, view.width, row.height - 2);
    const colour = colours[`${row.group}-text`] ?? colours.soft;
    writeWhole(drawing, row.label, x, y + 17, colour, LABEL.heading);
    pen.fillStyle = colours.line;
    pen.fillRect(x + widthOf(pen, row.label, LABEL.heading) + 10, y + 13, view.width, 1);
}

function drawWaitLabel(drawing, row, y) {
    const { pen, app: { colours, view } } = drawing;
    if (view.isNarrow) {
        const beside = view.left + widthOf(pen, row.label, LABEL.wait) + 10;
        const end = beside + widthOf(pen, row.below, LABEL.small) + 10;
        writeWhole(drawing, row.label, view.left, y + 12, colours.text, LABEL.wait);
        writeWhole(drawing, row.below, beside, y + 12, colours.soft, LABEL.small);
        if (end + widthOf(pen, row.right, LABEL.name) <= view.right) {
            writeWhole(drawing, row.right, view.right, y + 12, colours.soft, LABEL.name, "right");
        }
        return;
    }
    writeWhole(drawing, row.label, 22, y + 16, colours.text, LABEL.wait);
    writeWhole(drawing, row.below, 22, y + 29, colours.soft, LABEL.small);
    const end = view.left - 12, room = end - 22 - widthOf(pen, row.label, LABEL.wait) - 8;
    const right = cutTo(pen, row.right, LABEL.name, room);
    writeWhole(drawing, right, end, y + 16, colours.soft, LABEL.name, "right");
}

// A name that is no wider than this: as it is, or without what the names of its protocol begin
// with, or cut.
function fittingName(pen, name, width) {
    const isWhole = widthOf(pen, name, LABEL.name) <= width;
    return isWhole ? name : cutTo(pen, shortInterface(name), LABEL.name, width);
}

// An interface, how many objects have it, and if these are folded the most that there were at once.
function drawLabel(drawing, row, y) {
    const { pen, app: { colours, view } } = drawing;
    if (!row.label) {
        return;
    }
    const count = row.count > 1 ? counted(row.count) : "";
    const most = row.steps ? `most ${counted(row.most)} at once` : "";
    if (view.isNarrow) {
        const beside = view.left + widthOf(pen, row.label, LABEL.name) + 10;
        writeWhole(drawing, row.label, view.left, y + 12, colours.text, LABEL.name);
        writeWhole(drawing, count, beside, y + 12, colours.soft, LABEL.name);
        writeWhole(drawing, most, view.right, y + 12, colours.soft, LABEL.small, "right");
        return;
    }
    const room = view.left - 22 - 12 - (count ? widthOf(pen, count, LABEL.name) + 8 : 0);
    writeWhole(drawing, fittingName(pen, row.label, room), 22, y + 14, colours.text, LABEL.name);
    writeWhole(drawing, count, view.left - 12, y + 14, colours.soft, LABEL.name, "right");
    writeWhole(drawing, most, 22, y + 27, colours.soft, LABEL.small);
}
