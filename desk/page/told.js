// What the program answers, in words. Each rule is a pattern of its diagnostics and the sentence for it.

const RULES = [
  [/^not a replica$/, () => "This file is no manuscript."],
  [/^bad batch (\d+)$/, (part) => `This file is damaged, from its part ${part} on. Keep it as it is, and begin
    a new manuscript from a backup and from what the other authors have.`],
  [/^bad frame at byte (\d+)$/, (at) => `This is neither a manuscript nor a stream of one, or it was damaged on the
    way (at byte ${at}). Ask for it again.`],
  [/^cut short at byte (\d+)$/, () => "The end of this file is missing. Ask for it again."],
  [/^base differs at byte/, () => "The manuscript was changed somewhere else in the meantime."],
  [/^bad draft at line (\d+)$/, (line) => `Line ${line} can't be saved: a title is empty or too long.`],
  [/^empty draft$/, () => "The text is empty, and would take all sections away."],
  [/^no moment (\d+)$/, () => "The manuscript has not got so far yet."],
  [/^own operations since (\d+)$/, () => "You changed the manuscript somewhere else in the meantime."],
  [/^too long$/, () => "This is longer than a manuscript may be."],
  [/^batch too long$/, () => "This is more than can be saved at once. Save a smaller part first."],
  [/^too many: (\d+)$/, (count) => `A manuscript has room for ${count} changes, and no more.`],
  [/^ids spent: /, () => "Your author number has made as many changes as it can. Begin a copy with another number."],
  [/^stamps spent$/, () => "Sections can't be moved or renamed any more: the limit of such changes is reached."],
  [/^no section/, () => "That section is not there any more."],
  [/^no place/, () => "There is no such place for the section."],
  [/^out of range/, () => "That passage is not there any more."],
  [/^no comment/, () => "That comment is not there any more."],
  [/^passage not found/, () => "That passage is not there any more."],
  [/^passage found/, () => "That passage is there more than once."],
  [/^no version/, () => "There is no version of that name."],
  [/^not empty$/, () => "There is a manuscript already."],
  [/^words not understood$/, () => "The program did not understand what the page asked for."],
  [/^no memory$/, () => "The browser had no memory left. Nothing was lost: try again."],
  [/^outside fault$/, () => "The program could not read or write its file."],
];

export function inWords(notes) {
  const lines = notes.trim().split("\n");
  for (const [pattern, sentence] of RULES) {
    const found = pattern.exec(lines.at(-1));
    if (found) return sentence(...found.slice(1)).replace(/\s+/g, " ");
  }
  return "The program refused this.";
}

export function counted(count, one, many) {
  return Number(count) === 1 ? `1 ${one}` : `${Number(count).toLocaleString("en")} ${many}`;
}

// What became of changes that came in.
export function countsInWords({ accepted, repeated, waiting, conflict, stray, full }) {
  const sentences = [];
  if (accepted) sentences.push(`${counted(accepted, "new change", "new changes")} came in.`);
  else if (waiting) sentences.push("None of it can be shown yet.");
  else if (!conflict && !stray && !full) sentences.push(repeated ? "You had all of it already." : "Nothing came in.");
  if (full) {
    sentences.push(`${counted(full, "change was", "changes were")} left out, as too many wait already. Take in what
      was written earlier, and then this again.`);
  }
  if (conflict) {
    sentences.push(`${counted(conflict, "change has", "changes have")} the same number as another one that you have.
      Two copies of one file were changed, or two authors have the same number. What you had stays. See “Exchange”
      in the help.`);
  }
  if (stray) {
    sentences.push(`${counted(stray, "change fits", "changes fit")} nowhere, and ${stray === 1 ? "was" : "were"} left
      out. Ask where this file comes from.`);
  }
  return sentences.join(" ").replace(/\s+/g, " ");
}

export function waitingInWords(count) {
  const those = counted(count, "change waits", "changes wait");
  const join = count === 1 ? "It joins" : "They join";
  return `${those} for earlier ones that have not come in yet. ${join} in when you take in what the others have.`;
}
