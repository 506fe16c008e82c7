// The views. Each has:
//   name, said      its word in the address, and on its button
//   asks(policy)    asks the program what it shows: what `answers` holds, and what it keeps itself
//   asksOfTexts(policy)  asks besides what is shown whatever prefix is chosen
//   held            what it keeps
//   forget()        drops that, where another prefix is chosen
//   changes()       who stands otherwise, each with how it stood
//   paint()         what the picture shows of it: heat, count, free, waiting, the old report, who loads, where packets are spread, or a walk
//   hasNoArrows     whether routes aren't drawn
//   list(changed)   what the list on the right shows
//   told(id)        a sentence on a router or link, for the inspector
//   fault()         why there is nothing to show though the policy is accepted, where there is a reason
//   legend()        keys besides those of standings; where routes aren't drawn, all

import { change } from "./change.js";
import { compare } from "./compare.js";
import { free } from "./free.js";
import { routes } from "./routes.js";
import { spread } from "./spread.js";
import { chosen } from "./state.js";
import { steps } from "./steps.js";
import { whatif } from "./whatif.js";

export const VIEWS = [routes, spread, whatif, free, steps, compare, change];
export const view = () => VIEWS.find(({ name }) => name === chosen.view);
