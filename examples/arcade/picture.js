// Draws the world of the arcade game: 13 columns and 10 rows, the ground below; the points and the lives that are left above.
function picture(world, canvas) {
  const pen = canvas.getContext("2d"), wide = canvas.width / 13, high = canvas.height / 11;
  const box = ({column, row}, part, colour) => {
    pen.fillStyle = colour;
    pen.fillRect((column + (1 - part) / 2) * wide, canvas.height - (row + 1) * high, part * wide, high * 0.8);
  };
  pen.fillStyle = "#10141c";
  pen.fillRect(0, 0, canvas.width, canvas.height);
  for (const shot of world.shots) box(shot, 0.2, "#ffe066");
  for (const enemy of world.enemies) box(enemy, 0.8, "#ff6b6b");
  box({column: world.ship, row: 0}, 0.9, "#6cb2f0");
  pen.fillStyle = "#e6e6e6";
  pen.font = "16px sans-serif";
  pen.fillText(world.lives > 0 ? `${world.score} points, ${world.lives} lives` : `${world.score} points: the game is over`, 8, 20);
}
