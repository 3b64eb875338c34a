// @ts-check
// The page: a session, its views, and the hands that act on it.

import { readAddress } from "./address.mjs";
import { keepPage } from "./app.mjs";
import { Choices } from "./choices.mjs";
import { bindHands } from "./hands.mjs";
import { hostedFolder } from "./hosted.mjs";
import { Proved } from "./proved.mjs";
import { drawExamples } from "./rules_view.mjs";
import { Session } from "./session.mjs";
import { Streak } from "./streak.mjs";
import { Views } from "./views.mjs";

const startProved = count => new Proved(count);
const streak = new Streak(() => localStorage);

/** The session of the address. One that is wrong is told, and the first board is shown. */
function begin() {
  try {
    return { session: new Session(startProved, readAddress() || undefined, globalThis, streak), fault: null };
  } catch (fault) {
    return { session: new Session(startProved, undefined, globalThis, streak), fault };
  }
}

const { session, fault } = begin();
const views = new Views(session);
session.listener = views;
bindHands(session, views, new Choices(() => localStorage));
drawExamples(document.querySelectorAll("figure.example"), views.exampleHands);
session.stopPlaying();
session.show();
if (fault) views.hint(fault.message);

const hosted = hostedFolder(location);
session.library.isHosting = hosted !== null;
session.library.begin().then(() => {
  if (hosted) session.library.host(hosted);
  session.openAwaited();
});
keepPage();
