// Draws the court, 13 by 9: the ball, both bats and both players' points. How far along the ball is isn't in the output: it is served
// from the middle, and goes to and fro between the sides, so it is known by how many samples ago that was.
function picture([[across, [left, right]], [leftPoints, rightPoints]], canvas, before) {
  const pen = canvas.getContext("2d"), wide = canvas.width / 13, high = canvas.height / 9;
  pen.fillStyle = "#10141c";
  pen.fillRect(0, 0, canvas.width, canvas.height);
  pen.fillStyle = "#6cb2f0";
  pen.fillRect(0.3 * wide, left * high, 0.3 * wide, high);
  pen.fillRect(12.4 * wide, right * high, 0.3 * wide, high);
  pen.fillStyle = "#ffe066";
  pen.fillRect((across + 0.25) * wide, (along(before) + 0.25) * high, wide / 2, high / 2);
  pen.fillStyle = "#e6e6e6";
  pen.font = "16px sans-serif";
  pen.fillText(`${leftPoints} : ${rightPoints}`, canvas.width / 2 - 16, 20);
}

function along(before) {
  const turn = (4 + sinceServed(before)) % 16;
  return turn <= 8 ? turn : 16 - turn;
}

// How many samples ago the ball was in the middle: at the first sample, and at each behind one at which there was a point.
function sinceServed(before) {
  const points = ago => JSON.stringify(before(ago)?.[1]);
  let ago = 0;
  while (before(ago + 1) && points(ago + 1) === points(ago + 2)) ago += 1;
  return before(ago + 1) && !before(ago + 2) ? ago + 1 : ago;
}
