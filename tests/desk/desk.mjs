// Tries the page in a browser, group by group: desk.mjs [GROUP..]

import { ended } from "./checks.mjs";
import { exchange } from "./exchange.mjs";
import { folders } from "./folders.mjs";
import { goingBack } from "./going_back.mjs";
import { keyboard } from "./keyboard.mjs";
import { large } from "./large.mjs";
import { writing } from "./writing.mjs";

const groups = { writing, back: goingBack, keyboard, exchange, folders, large };
const wanted = process.argv.slice(2);
for (const [name, work] of Object.entries(groups)) if (wanted.length === 0 || wanted.includes(name)) await work();
process.exit(ended());
