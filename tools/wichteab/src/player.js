"use strict";
(() => {
  const data = JSON.parse(document.getElementById("data").textContent);
  const { places, bows, edges, goals, steps } = data;
  const element = (id) => document.getElementById(id);
  const floor = element("floor");
  const trains = element("trains");
  const said = element("said");
  const lines = Array.from(document.querySelectorAll("#steps li"));
  const racks = data.starts.map((_, index) => floor.querySelector(`[data-rack="${index + 1}"]`));
  const marks = data.starts.map((_, index) => floor.querySelector(`[data-goal-of="${index + 1}"]`));
  const stillness = window.matchMedia("(prefers-reduced-motion: reduce)");

  // Steps in a second, and how a person reads them.
  const speeds = [[0.5, "½×"], [1, "1×"], [2, "2×"], [4, "4×"], [8, "8×"], [20, "20×"]];
  const announced = 1; // up to this speed a screen reader can follow while it plays

  let made = 0; // steps made
  let moved = 0; // moves in them
  let speed = 1;
  let playing = false;
  let clock = 0;
  let finish = null; // puts the racks that are on their way where they belong
  const now = data.starts.slice();
  const rackAt = new Array(data.positions).fill(-1);
  now.forEach((position, rack) => { rackAt[position] = rack; });

  const bowOf = new Map();
  edges.forEach(([a, b], index) => {
    bowOf.set(`${a} ${b}`, bows[index]);
    bowOf.set(`${b} ${a}`, bows[index]);
  });

  // The curve from one position to another: from, towards, to. A straight edge is drawn towards its middle.
  function curve(left, entered) {
    const [from, to] = [places[left], places[entered]];
    const bow = bowOf.get(`${left} ${entered}`);
    return [from, bow || [(from[0] + to[0]) / 2, (from[1] + to[1]) / 2], to];
  }

  function onCurve([from, towards, to], part) {
    const rest = 1 - part;
    return [0, 1].map((axis) => rest * rest * from[axis] + 2 * rest * part * towards[axis] + part * part * to[axis]);
  }

  const drawAt = (rack, [x, y]) => racks[rack].setAttribute("transform", `translate(${x} ${y})`);

  // Makes the moves on the arrangement alone, and tells which rack went from where to where.
  function make(moves) {
    const going = moves.map(([left, entered]) => [rackAt[left], left, entered]).filter(([rack]) => rack >= 0);
    going.forEach(([, left]) => { rackAt[left] = -1; });
    going.forEach(([rack, , entered]) => {
      rackAt[entered] = rack;
      now[rack] = entered;
    });
    return going;
  }

  function stepForward() {
    const going = make(steps[made]);
    moved += steps[made].length;
    made += 1;
    return going;
  }

  function stepBack() {
    made -= 1;
    moved -= steps[made].length;
    return make(steps[made].map(([left, entered]) => [entered, left]));
  }

  // The step's chains of positions, each from the last rack's old position to the leader's new one.
  function chains(moves) {
    const next = new Map(moves);
    const entered = new Set(moves.map((move) => move[1]));
    return moves.filter(([left]) => !entered.has(left)).map(([left]) => {
      const chain = [left];
      for (let at = left; next.has(at); at = next.get(at)) {
        chain.push(next.get(at));
      }
      return chain;
    });
  }

  function drawn(name, attributes) {
    const part = document.createElementNS(floor.namespaceURI, name);
    Object.entries(attributes).forEach(([key, value]) => part.setAttribute(key, value));
    return part;
  }

  // A train: one line under its racks, with a dot at its end and a head on every edge.
  function drawTrain(chain) {
    const train = drawn("g", { class: "train", "data-train": chain.join(">") });
    const [x, y] = places[chain[0]];
    const curves = chain.slice(1).map((entered, index) => curve(chain[index], entered));
    const path = curves.map(([, towards, to]) => `Q${towards.join(" ")} ${to.join(" ")}`).join("");
    train.append(drawn("path", { class: "run", d: `M${x} ${y}${path}` }));
    train.append(drawn("circle", { class: "tail", cx: x, cy: y, r: 9 }));
    curves.forEach(([from, towards, to]) => {
      const [headX, headY] = onCurve([from, towards, to], 0.5);
      const angle = Math.atan2(to[1] - from[1], to[0] - from[0]) * 180 / Math.PI;
      const transform = `translate(${headX} ${headY}) rotate(${angle})`;
      train.append(drawn("path", { class: "head", d: "M-9 -14L11 0L-9 14Z", transform }));
    });
    return train;
  }

  const count = (number, of) => `${number} ${of}${number === 1 ? "" : "s"}`;

  function inWords(home) {
    const all = home === goals.length ? " Every rack is at its goal." : "";
    if (steps.length === 0) {
      return `There are no steps.${all}`;
    }
    if (made === 0) {
      return `Start. ${count(steps.length, "step")} to come.${all}`;
    }
    return `Step ${made} of ${steps.length}: ${lines[made - 1].textContent}.${all}`;
  }

  function showRack(rack) {
    const atGoal = now[rack] === goals[rack];
    racks[rack].dataset.position = now[rack];
    racks[rack].classList.toggle("home", atGoal);
    racks[rack].querySelector("text").setAttribute("x", atGoal ? data.homeTextAt : 0);
    marks[rack].classList.toggle("met", atGoal);
    return atGoal;
  }

  function showStep() {
    const home = now.filter((_, rack) => showRack(rack)).length;
    trains.replaceChildren(...(made > 0 ? chains(steps[made - 1]).map(drawTrain) : []));
    element("step").textContent = made;
    element("moves").textContent = moved;
    element("home").textContent = home;
    element("at").textContent = `${made} of ${steps.length}`;
    said.setAttribute("aria-live", playing && speeds[speed][0] > announced ? "off" : "polite");
    const words = inWords(home);
    if (said.textContent !== words) {
      said.textContent = words; // said again, it would be read again
    }
    const slider = element("slider");
    slider.value = made;
    slider.style.setProperty("--part", `${steps.length > 0 ? 100 * made / steps.length : 0}%`);
    slider.setAttribute("aria-valuetext", `step ${made} of ${steps.length}`);
    showLine();
  }

  function showLine() {
    const before = document.querySelector("#steps [aria-current]");
    if (before) {
      before.removeAttribute("aria-current");
    }
    const line = lines[made - 1];
    if (line) {
      line.setAttribute("aria-current", "step");
      if (element("steps").open) {
        const list = line.parentElement;
        list.scrollTop = line.offsetTop - list.offsetTop - list.clientHeight / 2;
      }
    }
  }

  // Drives the racks along their edges, unless the person asked for less motion.
  function drive(going) {
    if (stillness.matches) {
      going.forEach(([rack]) => drawAt(rack, places[now[rack]]));
      return;
    }
    const duration = Math.min(650, 720 / speeds[speed][0]);
    const ways = going.map(([rack, left, entered]) => [rack, curve(left, entered)]);
    let began = null;
    let frame = 0;
    const draw = (time) => {
      began = began === null ? time : began;
      const part = Math.min(1, (time - began) / duration);
      const eased = part * part * (3 - 2 * part);
      ways.forEach(([rack, way]) => drawAt(rack, onCurve(way, eased)));
      if (part < 1) {
        frame = requestAnimationFrame(draw);
      } else {
        finish = null;
      }
    };
    finish = () => {
      cancelAnimationFrame(frame);
      going.forEach(([rack]) => drawAt(rack, places[now[rack]]));
      finish = null;
    };
    frame = requestAnimationFrame(draw);
  }

  function goTo(wanted) {
    const target = Math.max(0, Math.min(steps.length, wanted));
    if (finish) {
      finish();
    }
    const single = Math.abs(target - made) === 1;
    let going = [];
    while (made < target) {
      going = stepForward();
    }
    while (made > target) {
      going = stepBack();
    }
    if (single) {
      drive(going);
    } else {
      now.forEach((position, rack) => drawAt(rack, places[position]));
    }
    showStep();
  }

  function setPlaying(wanted) {
    clearTimeout(clock);
    const paused = playing && !wanted;
    playing = wanted && steps.length > 0;
    element("play").classList.toggle("playing", playing);
    element("play").setAttribute("aria-label", playing ? "Pause" : "Play");
    if (playing && made === steps.length) {
      goTo(0);
    }
    if (playing) {
      tick();
    } else if (paused) {
      said.textContent = ""; // what was too fast to be read is read now
      showStep();
    }
  }

  function tick() {
    clock = setTimeout(() => {
      goTo(made + 1);
      if (made === steps.length) {
        setPlaying(false);
      } else {
        tick();
      }
    }, 1000 / speeds[speed][0]);
  }

  function setSpeed(wanted) {
    speed = Math.max(0, Math.min(speeds.length - 1, wanted));
    element("speed").textContent = speeds[speed][1];
    if (playing) {
      clearTimeout(clock);
      tick();
    }
  }

  function stepBy(difference) {
    setPlaying(false);
    goTo(made + difference);
  }

  function jumpTo(target) {
    setPlaying(false);
    goTo(target);
  }

  const keys = {
    " ": () => setPlaying(!playing),
    ArrowLeft: () => stepBy(-1),
    ArrowRight: () => stepBy(1),
    Home: () => jumpTo(0),
    End: () => jumpTo(steps.length),
    "+": () => setSpeed(speed + 1),
    "=": () => setSpeed(speed + 1),
    "-": () => setSpeed(speed - 1),
  };

  // Keys that the element in focus has a use of its own for.
  function ownKey(target, key) {
    if (target.closest("button, summary")) {
      return key === " ";
    }
    if (target.id === "slider") {
      return key.startsWith("Arrow") || key === "Home" || key === "End";
    }
    return target.id === "view" && target.scrollWidth > target.clientWidth && key.startsWith("Arrow");
  }

  document.addEventListener("keydown", (event) => {
    const act = keys[event.key];
    if (act && !event.ctrlKey && !event.altKey && !event.metaKey && !ownKey(event.target, event.key)) {
      event.preventDefault();
      act();
    }
  });
  element("first").addEventListener("click", () => jumpTo(0));
  element("back").addEventListener("click", () => stepBy(-1));
  element("play").addEventListener("click", () => setPlaying(!playing));
  element("forward").addEventListener("click", () => stepBy(1));
  element("last").addEventListener("click", () => jumpTo(steps.length));
  element("slower").addEventListener("click", () => setSpeed(speed - 1));
  element("faster").addEventListener("click", () => setSpeed(speed + 1));
  element("slider").addEventListener("input", (event) => jumpTo(Number(event.target.value)));
  element("steps").addEventListener("toggle", showLine);

  // A floor that is wider than the screen can be scrolled by keys.
  function letScroll() {
    const view = element("view");
    view.tabIndex = view.scrollWidth > view.clientWidth ? 0 : -1;
  }
  window.addEventListener("resize", letScroll);
  letScroll();
  setSpeed(speed);
  showStep();
})();
