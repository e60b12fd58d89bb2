const box = (part) => part.getBoundingClientRect();
const words = (id) => document.getElementById(id).parentElement.textContent.trim();
const tiles = Array.from(document.querySelectorAll("[data-tile]"), (tile) => [Number(tile.dataset.tile), box(tile)]);
const drawnOn = ({ left, right, top, bottom }) => {
  const [x, y] = [(left + right) / 2, (top + bottom) / 2];
  return tiles.filter(([, tile]) => x > tile.left && x < tile.right && y > tile.top && y < tile.bottom).map(([at]) => at);
};
const rackOf = (rack) => {
  const goal = document.querySelector(`#floor [data-goal-of="${rack.dataset.rack}"]`);
  return [
    rack.querySelector("text").textContent,
    Number(rack.dataset.position),
    drawnOn(box(rack.querySelector("rect"))),
    ...drawnOn(box(goal)),
    getComputedStyle(rack.querySelector(".check")).display !== "none",
    goal.classList.contains("met"),
  ];
};
// A train by its name, the tiles that its line is drawn from and to, and the heads on it.
const trainOf = (train) => {
  const line = train.querySelector(".run");
  const tileAt = (length) => {
    const { x, y } = line.getPointAtLength(length).matrixTransform(line.getScreenCTM());
    return drawnOn({ left: x, right: x, top: y, bottom: y });
  };
  return [train.dataset.train, ...tileAt(0), ...tileAt(line.getTotalLength()), train.querySelectorAll(".head").length];
};
return {
  step: words("step"),
  moves: words("moves"),
  home: words("home"),
  slider: document.getElementById("slider").value,
  racks: Array.from(document.querySelectorAll("#floor [data-rack]"), rackOf),
  trains: Array.from(document.querySelectorAll("#trains .train"), trainOf),
  said: document.getElementById("said").textContent,
  loaded: performance.getEntriesByType("resource").length,
};
