// ---- What a file is ------------------------------------------------------------------------------

/** "replies", "session", "configuration" or null, by what stands in it. */
function kindOf(text) {
  const kinds = [];
  for (let k = 0; k < Math.min(text.count, 5000); k += 1) {
    const line = text.latin(k, 200).replace(/\r$/, "");
    if (wordsOf(line).length > 0) kinds.push(kindOfLine(line));
  }
  if (kinds[0] === "replies") return "replies";
  if (hostnameOf(text) !== null) return "configuration";
  if (kinds.includes("replies")) return "replies";
  return kinds.includes("command") ? "session" : null;
}

function kindOfLine(line) {
  if ([SHOWN, REPORT, COUNTS, HEAD, /^(?:TN:|\{)/].some((form) => form.test(line))) return "replies";
  if (LINE.test(line) && line !== "suite") return "replies";
  const [word] = wordsOf(line);
  return COMMANDS.includes(word) || word[0] === "#" ? "command" : null;
}

/** The lines of a session that are answered. */
function commandsOf(text) {
  const commands = [];
  for (let k = 0; k < text.count; k += 1) {
    const long = text.to[k] - text.from[k] > 4096;
    const words = long ? [] : wordsOf(text.plain(k));
    if (words.length === 1 && words[0] === "quit") break;
    if (long) commands.push("(a line of more than 4,096 bytes)");
    else if (words.length > 0 && words[0][0] !== "#") commands.push(words.join(" "));
  }
  return commands;
}

// ---- One session with what stands beside it ------------------------------------------------------

const CAUSES = new Map([
  ["syntax", "the statement is malformed"],
  ["unsupported", "the statement would change what is routed, and NetCov doesn't read it"],
  ["no-name", "no hostname statement names the router"],
  ["two-processes", "there is a second router bgp with another number"],
  ["same-name", "another router has this name already"],
  ["overlap", "two interfaces of the router are up, and one's prefix is inside the other's"],
  ["same-address", "another router has this address already"],
  ["undefined", "the statement names something that the file doesn't define"],
]);

class Side {
  constructor(word) {
    Object.assign(this, { word, replies: null, session: null, configurations: [] });
    this.read();
  }

  /** Takes a file in; true where it is replies. With later replies, files of an earlier take are let go if they don't fit. */
  add(file, take, say) {
    const bytes = plainBytes(file.bytes, file.name, say);
    const front = kindOf(cutLines(bytes.subarray(0, 1000000), true));
    const text = front === "replies" ? null : cutLines(bytes, true);
    const kind = bytes.length === 0 ? "empty" : front ?? kindOf(text);
    if (kind === "replies") this.replies = { name: file.name, bytes, take };
    else if (kind === "session") this.session = { name: file.name, text, take };
    else if (kind === "configuration") this.addConfiguration({ name: file.name, text, take, router: hostnameOf(text) });
    else if (kind === "empty") say("error", `${file.name} is empty. Where a run wrote nothing, its error output says why.`);
    else say("error", `${file.name} has no reply of NetCov in it, no command of a session, and no hostname.`);
    return kind === "replies";
  }

  addConfiguration(file) {
    this.configurations = this.configurations.filter((other) => other.router !== file.router).concat([file]);
  }

  /** Makes the routers anew from all files that are there. */
  read() {
    this.messages = [];
    this.routers = new Map();
    this.list = [];
    this.commands = null;
    this.told = new Told([], null, "", null);
    this.firsts = new Firsts();
    Object.assign(this, { network: undefined, asked: undefined });
    if (this.replies === null) return this.tellWaiting();
    const say = (kind, text) => this.messages.push({ kind, text });
    const replies = new Replies(this.replies.bytes, this.replies.name, say);
    Object.assign(this, { list: replies.list, lines: replies.lines, firsts: replies.firsts });
    this.told = new Told(replies.list, replies.lines, replies.name, say);
    this.matchSession(replies, say);
    nameShows(replies, this.commands, say);
    this.joinMarks(replies, say);
    this.joinConfigurations(say);
    this.judge(replies, say);
    if (this.told.dead !== null) markDead(this.routers, this.told.dead, say);
    return undefined;
  }

  tellWaiting() {
    if (this.session === null && this.configurations.length === 0) return;
    this.messages.push({ kind: "note", text: "The replies are missing still: choose or drop what the session wrote." });
  }

  /** Gives each reply its command, where a session's file is there and goes with the replies. */
  matchSession(replies, say) {
    if (this.session === null) return;
    const commands = commandsOf(this.session.text);
    const { list, lines } = replies;
    const last = list.length - 1;
    const wrong = list.findIndex((reply, k) => !goesWith(commands[k], reply, lines.latin(reply.at, 200), k === last));
    if (wrong >= 0 || list[0]?.kind === "part") {
      if (this.isOld(this.session)) this.session = null;
      if (this.session === null) return undefined;
      const at = Math.max(wrong, 0);
      return say("warning", `${this.session.name} isn't the session of ${this.replies.name}: its command ${at + 1}, `
        + `“${commands[at] ?? "none"}”, doesn't go with “${lines.plain(list[at].at).slice(0, 80)}”. It is passed over.`);
    }
    this.commands = commands;
    if (list.length >= commands.length) return;
    say("warning", `${many(commands.length - list.length, "command")} of ${this.session.name} without a reply in `
      + `${this.replies.name}, the first is “${commands[list.length]}”: the run or the file was cut.`);
  }

  joinMarks(replies, say) {
    const put = (name, marks, text) => this.routers.set(name, { name, marks, text, counts: countMarks(marks) });
    for (const [name, { marks }] of replies.marks) put(name, marks, null);
    const last = new Map(replies.shows.map((show) => [show.name, show]));
    for (const show of last.values()) {
      const known = replies.marks.get(show.name);
      if (known === undefined) put(show.name, show.marks, show.text);
      else this.joinShow(this.routers.get(show.name), show, known, say);
    }
  }

  /** A text of `show` for a router whose marks are known from another reply. */
  joinShow(router, show, known, say) {
    const [told, shown, at] = [known.marks.length, show.text.count, show.at + 1];
    if (shown > told) {
      return say("error", `${router.name}: its show reply at line ${at} has ${shown} lines, and its report ${told}: they are not `
        + "of one file. The text is passed over.");
    }
    router.text = show.text;
    if (shown < told) return say("warning", `${router.name}: its show reply is cut: ${shown} of ${told} lines have text.`);
    if (show.marks.every((mark, k) => mark === router.marks[k])) return undefined;
    if (known.at > show.at) {
      return say("note", `${router.name}: tests behind its show reply changed marks; the newer ones stand here.`);
    }
    say("warning", `${router.name}: its show reply at line ${at} has other marks than the last whole report before it. Those of `
      + "the show reply stand here.");
    router.marks = show.marks;
    router.counts = countMarks(show.marks);
    return undefined;
  }

  isOld(file) {
    return file.take < this.replies.take;
  }

  joinConfigurations(say) {
    const fits = (file) => misfit(file, this.routers.get(file.router)) === null;
    this.configurations = this.configurations.filter((file) => !this.isOld(file) || fits(file));
    for (const { name, text, router } of this.configurations) {
      const known = this.routers.get(router);
      if (known !== undefined && known.text !== null && known.text.count === known.marks.length) continue;
      const fault = misfit({ text, router }, known);
      if (fault === null) known.text = text;
      else say(known === undefined ? "warning" : "error", `${name}${fault}`);
    }
  }

  judge(replies, say) {
    const all = [...this.routers.values()];
    const sum = all.reduce((counts, router) => addCounts(counts, router.counts), noCounts());
    const { told } = replies;
    const last = replies.shows.reduce((at, show) => Math.max(at, show.at), -1);
    if (told && told.at > last && [...IN_REPLIES].some((mark, k) => sum[mark] !== told.told[k])) {
      say("warning", `The counts of the reply at line ${told.at + 1} aren't those of its marks; the page counts the marks.`);
    }
    const without = all.filter((router) => router.text === null).map((router) => router.name);
    if (all.length === 0) this.judgeEmpty(say);
    else if (without.length > 0) tellTextless(without, all.length, say);
    const odd = all.reduce((count, router) => count + (router.text === null ? 0 : countNotUtf8(router.text)), 0);
    if (odd > 0) say("note", `${many(odd, "line")} with bytes that aren't UTF-8; these stand as their numbers, like \\xe9.`);
  }

  /** Where no marks are there: what was refused, or that no report is there. */
  judgeEmpty(say) {
    const refusal = this.list.length > 0 && this.list[0].kind === "refused" ? this.lines.plain(this.list[0].at) : "";
    const fault = /^refused config (.*) (\d+) ([a-z-]+)$/.exec(refusal);
    if (fault !== null) {
      const where = fault[2] === "0" ? "" : ` at line ${fault[2]}`;
      return say("error", `NetCov refused ${fault[1]}${where}: ${CAUSES.get(fault[3]) ?? fault[3]}. No test was run.`);
    }
    if (/^refused (usage|unstable|limit (routers|bytes|lines|prefixes|neighbours))/.test(refusal)) {
      return say("error", `NetCov ran no test: it answered “${refusal}”.`);
    }
    return say("error", `${this.replies.name} has no show reply, no json reply and no report, so there is nothing to look at. `
      + "End the session with a line “show NAME” for each router.");
  }
}

/** Why a configuration file can't be that of a router's marks; null where nothing speaks against it. */
function misfit({ text, router }, known) {
  if (known === undefined) return `: the replies know no router ${router}.`;
  const { marks } = known;
  const wrong = ": it isn't the file that the session ran over.";
  if (text.count !== marks.length) {
    return ` has ${text.count} lines, and the replies have marks of ${marks.length} for ${router}${wrong}`;
  }
  const k = marks.findIndex((mark, line) => mark !== 46 && isBlankOrComment(text, line));
  if (k < 0) return null;
  return `: line ${k + 1} is blank or a comment, and the replies give it the mark ${String.fromCharCode(marks[k])}${wrong}`;
}

function isBlankOrComment(text, k) {
  const [word] = wordsOf(text.latin(k, 200));
  return word === undefined || word[0] === "!";
}

function tellTextless(names, all, say) {
  const some = names.slice(0, 3).map((name) => `show ${name}`).join(", ");
  const who = names.length === all ? "No router has" : `${names.length} of ${all} routers, ${names[0]} the first, don't have`;
  say("note", `${who} its text here: end the session with ${some}${names.length > 3 ? ", .." : ""}, or drop the configuration `
    + "files beside the replies.");
}

/** How many lines aren't UTF-8. Most files are it as a whole, in which case no line is looked at by itself. */
function countNotUtf8(text) {
  if (isUtf8(text.bytes.subarray(text.from[0], text.to[text.count - 1]))) return 0;
  let count = 0;
  for (let k = 0; k < text.count; k += 1) if (!isUtf8(text.raw(k))) count += 1;
  return count;
}

function isUtf8(bytes) {
  try {
    STRICT.decode(bytes);
    return true;
  } catch {
    return false;
  }
}

/** Whether a reply can be that of a command. */
function goesWith(command, reply, line, isLast) {
  if (command === undefined) return isLast && line === "refused limit session";
  const [word] = command.split(" ");
  if (reply.kind === "refused") return !line.startsWith("refused absent ") || `refused absent ${command}`.startsWith(line);
  if (reply.kind === "report") return line.startsWith("test ") ? TESTS.includes(word) : word === "forget";
  return reply.kind === word;
}

/** Names the router of each text of `show`: by its hostname, else the session's command, else its marks, else a number. */
function nameShows(replies, commands, say) {
  const named = new Set();
  for (const show of replies.shows) {
    show.name = hostnameOf(show.text);
    const command = commands === null ? null : wordsOf(commands[show.reply])[1];
    if (show.name !== null && command !== null && command !== show.name && !show.cut) {
      say("warning", `The show reply at line ${show.at + 1} is of ${show.name} by its hostname, and of ${command} by the `
        + "session's file.");
    }
    show.name ??= command;
    named.add(show.name);
  }
  let number = 0;
  for (const show of replies.shows.filter((one) => one.name === null)) {
    const alike = [...replies.marks].filter(([name, { marks }]) => !named.has(name) && beginsWith(marks, show.marks));
    if (alike.length === 1) [[show.name]] = alike;
    else show.name = `file ${(number += 1)}`;
    named.add(show.name);
    const who = alike.length === 1 ? `By its marks it is of ${show.name}.`
      : `It can't be told whose it is: it is called “${show.name}”. The session's file beside it would tell.`;
    say("warning", `The show reply at line ${show.at + 1} has no hostname, so it is cut. ${who}`);
  }
}

const beginsWith = (all, front) => front.length <= all.length && front.every((mark, k) => mark === all[k]);
