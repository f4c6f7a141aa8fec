// The section of an RFC behind each reason to drop a frame. Nothing here is proved.

// Those of a message's own validation, by its type; of a role that doesn't take it; and those that are the same for all.
const VALIDATIONS = { 133: '4861 6.1.1', 134: '4861 6.1.2', 135: '4861 7.1.1', 136: '4861 7.1.2', 137: '4861 8.1' };
const NOT_TAKEN = { 133: '4861 6.1.1', 134: '4861 6.2.7', 137: '4861 8.2' };
const SECTIONS = { 1: '2464 3', 2: '2464 3', 3: '8200 3', 4: '8200 3', 5: '8200 3', 8: '4861 4.6', 9: '4861 4.6', 11: '4443 2.3', 20: '4861 8.1' };
// The messages that a reason is of, if it isn't of all.
const MESSAGES_OF = { 12: [134, 137], 13: [135, 136], 14: [133, 135], 15: [135], 16: [136], 17: [137], 18: [137] };
const ANY_MULTICAST = '4291 2.7';

// Returns the section of a reason, as the numbers of the RFC and of the section, for a frame that a host or a router drops without its tables.
function sectionOf(reason, frame) {
    const type = frame[54];
    if (Number(reason) === 19) return NOT_TAKEN[type];
    if (Number(reason) === 12 && frame[22] === 0xff) return ANY_MULTICAST;
    return SECTIONS[reason] ?? VALIDATIONS[type];
}

// What a node says of a frame that isn't for it (reason 19), by the role of the node: words and sections. A message that the role takes is dropped
// by the node's addresses.
function notForNode(frame, role) {
    const type = frame?.[54], isTaken = role === 'host' ? type !== 133 : ![134, 137].includes(type);
    if (frame?.[20] === 58 && !isTaken) return [`a ${role} takes no ${MESSAGES[type].name}`, [NOT_TAKEN[type]]];
    if (frame?.[20] === 58 && type === 135) return ['its target or destination is no address of this node, or one that it does not use', ['4861 7.2.3', '4862 5.4.3']];
    return ['it has another destination or target, or the link-local address is not assigned yet or a duplicate', []];
}

// Returns the sections of a reason, whatever the message is.
function sectionsOf(reason) {
    if (SECTIONS[reason]) return [SECTIONS[reason]];
    if (reason === 19) return [...Object.values(NOT_TAKEN), '4861 7.2.3', '4862 5.4.3'];
    const found = (MESSAGES_OF[reason] ?? Object.keys(VALIDATIONS)).map((type) => VALIDATIONS[type]);
    return reason === 12 ? [ANY_MULTICAST, ...found] : found;
}

const sectionText = (section) => section.replace(/(\S+) (\S+)/, 'RFC $1, $2');
const sectionLink = (section) => section.replace(/(\S+) (\S+)/, 'https://www.rfc-editor.org/rfc/rfc$1#section-$2');
