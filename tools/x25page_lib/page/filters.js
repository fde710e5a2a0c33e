// What the filters of tables mean: "call 4" and "connection 3" are a call and a connection, and other words are looked for in the texts.

const NUMBERED = /\b(?:(call|channel|connection|packet|frame)\s+(\d+)|(code)\s+(x[\dl]|\d+))(?!\S)/g;
const BEGUN = /\b(?:call|channel|connection|packet|frame|code)\s*$/;

// Whether a value is that of a line, or one of its values.
const isOneOf = (values, value) => [values].flat().some((it) => String(it).toLowerCase() === value);

// A filter: each number that it names is that of the line, and the texts of the line have each of its words.
function filterOf(text) {
  const numbers = [];
  const rest = text.toLowerCase().replaceAll(",", " ").replace(NUMBERED, (_, name, number, code, value) => {
    numbers.push([name || code, number ? String(Number(number)) : value]);
    return " ";
  });
  const words = rest.trim().replace(BEGUN, "").split(/\s+/).filter(Boolean);
  const takes = (of, texts) => {
    const all = texts.toLowerCase();
    return numbers.every(([name, number]) => isOneOf(of[name], number)) && words.every((it) => all.includes(it));
  };
  return { isEmpty: !numbers.length && !words.length, takes };
}
