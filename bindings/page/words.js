// What the words of a line mean: of what a node reports and of its tables, of a frame, and of a script. Nothing here is proved.

const SINCE_START = 'the moment, in milliseconds since the node started';
// By the kind of a line: a word, and what each of the words behind it is.
const MEANINGS = @WORDS@;
// What the words mean that begin a line.
const BEGINNINGS = Object.fromEntries(['output', 'script'].map((kind) => [kind,
    Object.fromEntries(Object.entries(MEANINGS[`${kind} begins`]).map(([word, [meaning]]) => [word, meaning]))]));

// The numbers that mean something by themselves, by the word before them.
const NUMBERS = { opt: MEANINGS.option, other: MEANINGS['next header'] };

// Returns the words of a line, each with what it means, or with an empty text. A word that is not explained by one before it begins anew.
function explained(kind, line) {
    let expected = kind === 'script' ? [SINCE_START] : [];
    return line.split(' ').map((word, index, words) => {
        const general = expected.shift(), special = kind === 'frame' ? NUMBERS[words[index - 1]]?.[word]?.[0] : undefined;
        const meaning = general === undefined ? undefined : special ?? general;
        if (meaning === undefined && Object.hasOwn(MEANINGS[kind], word)) expected = [...MEANINGS[kind][word]];
        return [word, meaning ?? BEGINNINGS[kind]?.[word] ?? ''];
    });
}
