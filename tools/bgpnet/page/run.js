// What stands behind each event of a run, as `bgpnet trace` tells it. Nothing here draws: the page does, and tests ask
// it alone.
"use strict";

const MOST_AHEAD = 200; // so many events lie between two states that are kept
const LONGEST_PATH = 16; // the most routers of a path (docs/TEXTS.md)

// The prefix and the path of an UPDATE as `decode` prints it, `none` where it is withdrawn; null of another message.
function updateOf(said) {
  const words = said.split(" ");
  if (words[0] !== "update") return null;
  if (words[1] === "withdraw" && words.length === 3) return {prefix: words[2], path: "none"};
  if (words[1] === "announce" && words[3] === "path") return {prefix: words[2], path: words[4]};
  return null;
}

// A record that has one thing for each of some names.
function each(names, make) {
  return Object.fromEntries(names.map((name) => [name, make(name)]));
}

// What routers know and what is on its way behind some events.
class State {
  constructor(run) {
    this.run = run;
    this.at = 0;
    this.kept = each(run.numbers, () => ({}));
    this.originated = each(run.numbers, () => ({}));
    this.session = each(run.numbers, (router) => each(run.peers[router], () => "Idle"));
    // The last word of each peer for each prefix, and to each peer, in the session that is up.
    this.heard = each(run.numbers, (router) => each(run.peers[router], () => ({})));
    this.told = each(run.numbers, (router) => each(run.peers[router], () => ({})));
    // Of each way of a link what waits in the outbox, the pieces in the pipe, and what was taken and not handled.
    this.ways = each(run.ways, () => ({outbox: [], pipe: [], taken: []}));
    // By snapshot: the event at which each router recorded, how many offered, and whether it is decided.
    this.snapshots = {};
  }

  copied() {
    const other = Object.create(State.prototype);
    for (const [name, value] of Object.entries(this)) other[name] = name === "run" ? value : structuredClone(value);
    return other;
  }

  // Goes on by the next event. Answers what a chart shows of it.
  pass() {
    const event = this.run.events[this.at++];
    const [word, own, ...rest] = event.words;
    const shown = [];
    if (this.run.commands.includes(word)) {
      shown.push({kind: "command", router: own, text: [word, ...rest].join(" ")});
      if (word === "originate") this.originated[own][rest[0]] = true;
      if (word === "withdraw") delete this.originated[own][rest[0]];
      if (word === "restart") this.kept[own] = {}, this.originated[own] = {};
    }
    if (word === "tick") shown.push({kind: "second", router: own});
    if (word === "put") this.put(`${own} ${rest[0]}`, event.said, shown);
    if (word === "take") this.take(`${rest[0]} ${own}`, shown);
    for (const said of event.said) this.say(event.words, said, shown);
    return shown;
  }

  say(words, said, shown) {
    const own = words[1], [word, ...rest] = said.split(" ");
    if (word === "tells") {
      const [peer, prefix, path] = rest;
      this.told[own][peer][prefix] = path;
      this.ways[`${own} ${peer}`].outbox.push({prefix, path, at: this.at});
      shown.push({kind: "tells", way: `${own} ${peer}`, prefix, path, at: this.at});
    } else if (word === "hears") {
      this.hear(words[2], own, rest.join(" "), shown);
    } else if (word === "keeps") {
      const path = rest[1].replace(",", "");
      this.kept[own][rest[0]] = path;
      shown.push({kind: "keeps", router: own, prefix: rest[0], path});
    } else if (word === "session") {
      this.change(own, rest[0], rest[1]);
      shown.push({kind: "session", router: own, text: `${rest[0]} ${rest[1]}`, isUp: rest[1] === "Established"});
    } else if (word === "records") {
      this.snapshot(rest[0]).recorded[own] = this.at;
      shown.push({kind: "records", router: own, snapshot: rest[0]});
    } else if (word === "offers") {
      const snapshot = this.snapshot(rest[1]);
      snapshot.parts += 1;
      snapshot.isDecided ||= rest[2] === "lost" || snapshot.parts === this.run.numbers.length;
    }
  }

  snapshot(number) {
    return (this.snapshots[number] ||= {recorded: {}, parts: 0, isDecided: false});
  }

  // What was said stands in one piece in the pipe.
  put(name, said, shown) {
    const way = this.ways[name];
    const piece = said.filter((text) => text.startsWith("sends ")).map((text) => {
      const what = text.slice("sends ".length), update = updateOf(what);
      const at = update ? way.outbox.findIndex((one) => one.prefix === update.prefix && one.path === update.path) : -1;
      return at < 0 ? {what, at: this.at} : {...way.outbox.splice(at, 1)[0], what};
    });
    way.pipe.push(piece);
    for (const item of piece) shown.push({kind: "puts", way: name, item});
  }

  // The piece in front is taken. What was taken before and not handled is gone: its session closed.
  take(name, shown) {
    const way = this.ways[name], piece = way.pipe.shift() || [];
    way.taken = piece.filter((item) => item.path && !item.isLost);
    for (const item of piece) shown.push({kind: "takes", way: name, item});
  }

  hear(teller, own, said, shown) {
    const update = updateOf(said), way = this.ways[`${teller} ${own}`];
    if (!update) return;
    const is = (one) => one.prefix === update.prefix && one.path === update.path;
    let from = null;
    for (const waiting of [way.taken, ...way.pipe, way.outbox]) {
      const at = waiting.findIndex(is);
      if (at >= 0) {
        from = waiting.splice(at, 1)[0].at;
        break;
      }
    }
    this.heard[own][teller][update.prefix] = update.path;
    shown.push({kind: "hears", way: `${teller} ${own}`, ...update, from});
  }

  // A session comes to another state: what was said in it, and is on its way, counts no longer.
  change(own, peer, state) {
    this.session[own][peer] = state;
    this.heard[own][peer] = {};
    this.told[own][peer] = {};
    for (const name of [`${own} ${peer}`, `${peer} ${own}`]) {
      const way = this.ways[name];
      way.outbox = [];
      way.taken = [];
      for (const piece of way.pipe) for (const item of piece) item.isLost = true;
    }
  }

  path(router, prefix) {
    return this.kept[router][prefix] || "none";
  }

  // The UPDATEs on a way that count: each with where it is, the outbox, the pipe, or taken.
  underWay(name) {
    const {outbox, pipe, taken} = this.ways[name];
    const live = pipe.flat().filter((item) => item.path && !item.isLost);
    return [[outbox, "outbox"], [live, "pipe"], [taken, "taken"]].flatMap(
      ([items, place]) => items.map((item) => ({...item, place})));
  }

  isEstablished(router, peer) {
    return this.session[router][peer] === "Established";
  }

  // Whether an UPDATE told by one router at some event to another lies across the cut of a snapshot.
  isAcross(snapshot, teller, hearer, at) {
    const {recorded} = this.snapshot(snapshot);
    return recorded[teller] >= at && recorded[hearer] !== undefined;
  }

  // What a router knows, in the lines of `bgpnet why`, but for incarnations, outboxes and timers.
  why(router) {
    const lines = [`router ${router}`];
    for (const peer of this.run.peers[router]) lines.push(`peer ${peer} ${this.session[router][peer]}`);
    for (const prefix of this.run.prefixes) lines.push(...this.whyPrefix(router, prefix));
    return lines;
  }

  whyPrefix(router, prefix) {
    const own = this.path(router, prefix), peers = this.run.peers[router].filter((peer) => this.isEstablished(router, peer));
    const lines = [`prefix ${prefix} keeps ${own}${this.originated[router][prefix] ? ", originated" : ""}`];
    for (const peer of peers) {
      const said = this.heard[router][peer][prefix] || "none";
      if (said !== "none") lines.push(`  from ${peer} ${said}: ${this.makesOf(router, prefix, said, own)}`);
    }
    const same = peers.filter((peer) => (this.told[router][peer][prefix] || "none") === own);
    if (same.length) lines.push(`  told ${same.join(" ")}`);
    return lines;
  }

  // What a router makes of the path that a peer said.
  makesOf(router, prefix, said, own) {
    const routers = said.split("-"), path = `${router}-${said}`, rule = this.run.ruleOf(router, prefix);
    if (routers.includes(router)) return "loop";
    const isPermitted = this.run.origins[prefix] !== router && (rule ? rule.includes(path) : routers.length < LONGEST_PATH);
    if (!isPermitted) return "not permitted";
    return path + (rule ? `, place ${rule.indexOf(path) + 1}` : "") + (path === own ? ", kept" : "");
  }
}

// A run: what was written into the page, and the state behind each event.
class Run {
  constructor(data) {
    Object.assign(this, data);
    this.numbers = data.routers.map((router) => router.number);
    this.peers = each(this.numbers, () => []);
    for (const {ends: [one, other]} of data.links) this.peers[one].push(other), this.peers[other].push(one);
    for (const peers of Object.values(this.peers)) peers.sort((one, other) => one - other);
    this.ways = data.links.flatMap(({ends: [one, other]}) => [`${one} ${other}`, `${other} ${one}`]);
    this.prefixes = Object.keys(data.origins);
    this.events = data.events.map(([order, line, ...said]) => ({words: order.split(" "), order, line, said}));
    this.states = [new State(this)];
    this.rows = []; // of each event what a chart shows of it
    const state = new State(this);
    for (const _ of this.events) {
      this.rows.push(state.pass());
      if (state.at % MOST_AHEAD === 0) this.states.push(state.copied());
    }
  }

  // The paths that the rule of a router permits for a prefix, the best first; null where no rule covers it.
  ruleOf(router, prefix) {
    const at = (this.ruled[router] || {})[prefix];
    return at === undefined ? null : this.rules[at];
  }

  // The state behind so many events.
  behind(number) {
    const state = this.states[Math.floor(number / MOST_AHEAD)].copied();
    while (state.at < number) state.pass();
    return state;
  }
}

if (typeof module !== "undefined") module.exports = {Run};
