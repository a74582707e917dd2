// Each cause of a rejection in words: what it is called in a list, a sentence that says what it means in this hand, and
// the rule.

/**
 * What a sentence needs of a hand: an amount with its sign, and the name of a seat.
 * @typedef {{ say: (amount: string) => string, seat: (number: string) => string, isCashed: boolean }} Context
 *
 * @typedef {{ short: string, says: (words: string[], it: Context) => string, rule: string, isAtEnd?: boolean }} Cause
 */

const CASHED =
    'A player cashed out of this hand, so the site kept what they won, and the text has no line that collects it. ' +
    'Such a hand can\'t be checked, and it is in no sum.';
const READ = 'A line of a hand has one of the forms in which PokerStars writes it. Chat and remarks are skipped.';
const TURNS = 'Players act in turn: up by seat and around the table. Nobody who owes an act is passed over.';
const STREETS =
    'The next street begins when nobody owes an act. Streets come in the order of the game, and each of them comes.';
const CHIPS = 'The stated pot is all that was put in. It is also all that was collected, and the rake.';
const STACKS =
    'Nobody puts in more than they have. A line says that a player is all-in exactly if it takes their last chip.';

/** @type {{ [cause: string]: Cause }} */
export const CAUSES = {
    UnknownGame: {
        short: 'unknown game',
        rule: 'Nine games are read, with a limit. The names of their variants aren\'t.',
        says: () => 'The first line names no game that the program knows, so the hand can\'t be judged.'
    },
    BadHeader: {
        short: 'first lines not read',
        rule: READ,
        says: () =>
            'The first line or a seat line isn\'t in the form that PokerStars writes for a usual table. ' +
            'Home games and license numbers in the first line aren\'t read either.'
    },
    BadAction: {
        short: 'line not read',
        rule: READ,
        says: (words, { isCashed }) =>
            isCashed ? CASHED : 'A player\'s line is in none of the forms of an act, or names nobody who is seated.'
    },
    BadMarker: { short: 'street not read', rule: READ, says: () => 'A line with stars is no street of this game.' },
    BadCards: {
        short: 'cards not read',
        rule: READ,
        says: () => 'The cards in brackets can\'t be read, or are too many or too few.'
    },
    BadAmount: {
        short: 'amount not read',
        rule: READ,
        says: () => 'An amount is missing, is 0, or has other text after it.'
    },
    AmountTooLarge: { short: 'amount too large', rule: READ, says: () => 'An amount has more than 15 digits.' },
    Cancelled: {
        short: 'cancelled',
        rule: 'A cancelled hand has no result.',
        says: () => 'The site cancelled this hand, so there is nothing to settle.'
    },
    NotInHand: {
        short: 'not in the hand',
        rule:
            'Only a player who hasn\'t folded and has chips left posts or acts. Only one who hasn\'t folded collects.',
        says: () => 'A player acts who has folded or has no chips left, or somebody collects who isn\'t in the hand.'
    },
    OutOfTurn: {
        short: 'out of turn',
        rule: TURNS,
        says: (words, { seat }) => `${seat(words[2])} still owes an act, and comes before the player who acts here.`
    },
    NothingOwed: {
        short: 'acts twice',
        rule: TURNS,
        says: () => 'A player acts who has acted already, and to whom no bet was made since.'
    },
    CheckFacingBet: {
        short: 'check facing a bet',
        rule: 'A player who faces a bet calls, raises, or folds.',
        says: (words, { say }) => `A player checks who still has to call ${say(words[1])}.`
    },
    CallAmount: {
        short: 'call of a wrong amount',
        rule: 'A call is of what is due, or of the whole stack if that is less. Before the first bet the big ' +
            'blind may be called too.',
        says: (words, { say }) =>
            `The call isn't of what is due, which is ${say(words[1])}, and not of the whole stack.`
    },
    BetFacingBet: {
        short: 'bet facing a bet',
        rule: 'A player bets if nobody has chips in front on the street. Otherwise they raise.',
        says: () => 'A player bets although somebody has bet or posted on this street.'
    },
    RaiseAmount: {
        short: 'raise of wrong amounts',
        rule: 'In "raises A to B", B is above the greatest bet, and A is what B is above it.',
        says: (words, { say }) =>
            `The two amounts of the raise don't fit the greatest bet so far, which is ${say(words[1])}.`
    },
    AboveStack: {
        short: 'more than the stack',
        rule: STACKS,
        says: (words, { say }) => `The player puts in more than the ${say(words[1])} they have left.`
    },
    AllInWord: {
        short: 'all-in or not',
        rule: STACKS,
        says: () => 'The line says that the player is all-in, and chips are left, or it doesn\'t say so, and none are.'
    },
    StreetEarly: {
        short: 'street too early',
        rule: STREETS,
        says: (words, { seat }) => `${seat(words[2])} still owes an act when the street ends here.`
    },
    StreetOrder: {
        short: 'street out of order',
        rule: STREETS,
        says: () => 'A street comes out of order, or one is missing, or too few players are left for it.'
    },
    UncalledAmount: {
        short: 'wrong bet returned',
        rule: 'The bet that nobody called comes back: what one player put in above all others.',
        says: (words, { say }) => words[1] === '0' || words[1] === '0.00'
            ? 'A bet comes back, but no player put in more than the others.'
            : `A bet comes back that isn't the one that nobody called, which is ${say(words[1])}.`
    },
    CardTwice: {
        short: 'a card twice',
        rule: 'A card is in one place: on the board or in one hand.',
        says: (words) => `The card ${words[1]} is named for two places.`
    },
    PostLate: {
        short: 'post too late',
        rule: 'Blinds and antes are posted before the first street.',
        says: () => 'A blind or an ante is posted too late, or the bring-in out of its place.'
    },
    SeatTwice: {
        short: 'a seat twice',
        rule: 'A seat has one player.',
        says: () => 'A seat has a second line before the cards are dealt.'
    },
    TooManyCards: {
        short: 'too many cards',
        rule: 'A player holds as many cards as the game deals.',
        says: (words, { seat }) => `${seat(words[2])} has more cards than the game deals.`
    },
    Chips: {
        short: 'chips don\'t add up',
        rule: CHIPS,
        says: (words, { say, isCashed }) => isCashed
            ? `${CASHED} The stated pot is ${say(words[1])}. Collections and rake add up to ${say(words[2])}.`
            : `The stated pot is ${say(words[1])}. What was put in, or collected and raked, is ${say(words[2])}.`
    },
    Split: {
        short: 'paid against the rules',
        isAtEnd: true,
        rule:
            'A player gets of each pot what the rules give. One unit for each side that they win, on each board, ' +
            'is let pass, because sites round differently.',
        says: (words, { say, seat }) => `${seat(words[2])} is due ${say(words[4])} of a pot and got ${say(words[6])}.`
    },
    Unfinished: {
        short: 'cut off',
        isAtEnd: true,
        rule: `${CHIPS} Without the line that states the pot, a hand isn't finished.`,
        says: () => 'The hand ends before the line "Total pot", so nobody can say how it was paid.'
    },
};

/**
 * Returns what a cause means in a hand.
 * @param {string} cause  as in a report: `Split seat 3 due 325 got 0`
 * @param {Context} context
 */
export const causeOf = (cause, context) => {
    const words = cause.split(' '), it = CAUSES[words[0]];
    if (!it)
        return {
            name: words[0],
            short: cause,
            sentence: `The program names the cause ${cause}.`,
            rule: '',
            isAtEnd: false
        };
    const isCashed = context.isCashed && (words[0] === 'Chips' || words[0] === 'BadAction');
    return {
        name: words[0],
        short: isCashed ? 'cashed out' : it.short,
        sentence: it.says(words, context),
        rule: it.rule,
        isAtEnd: it.isAtEnd === true
    };
};
