// What parts of the page tell each other, so that none has to know the others: `show` where something has changed that is shown,
// `over` where the pointer or the focus has come to a router or a link, and `glance` where it has come to what speaks of one, which the
// picture alone then shows.

const heard = { show: [], over: [], glance: [] };

/** Calls this whenever such a thing is told. */
export const on = (what, call) => heard[what].push(call);
const tell = (what, ...words) => heard[what].forEach((call) => call(...words));

export const show = () => tell("show");
/** `kind` is node or link; without one the pointer has left. */
export const over = (kind, id) => tell("over", kind, id);
export const glance = (kind, id) => tell("glance", kind, id);
