// The worker: it has the module, and answers one message after another, so that the page itself never waits.

let calls = null;

// how many cases are tried between two words on how far the search is
const CASES_BETWEEN = 500;

function answerCall({ id, words, files, most }) {
  const answer = calls.call(words, files, most);
  postMessage({ id, answer }, [answer.out.buffer, answer.err.buffer]);
}

function answerSearch({ id, rule, property, seed, cases }) {
  const search = new Search(calls, rule, property, seed);
  let next = CASES_BETWEEN;
  const found = search.run(cases, (tried) => {
    if (tried < next) return;
    next = tried + CASES_BETWEEN;
    postMessage({ id, tried });
  });
  const answer = { tried: search.tried, met: search.met, found: found && told(found) };
  postMessage({ id, answer });
}

onmessage = ({ data }) => {
  if (data.module) {
    calls = new Calls(data.module);
    return;
  }
  try {
    if (data.property) answerSearch(data);
    else answerCall(data);
  } catch (stop) {
    postMessage({ id: data.id, stopped: reasonOf(stop) });
  }
};
