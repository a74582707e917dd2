// What a run's status means, if it isn't 0 or 1.

/** @type {{ [status: number]: string }} */
export const STATUS = {
    2: 'the program doesn\'t know these words',
    3: 'a read failed',
    4: 'a write failed',
    5: 'there is more than 1 GiB of text',
    6: 'memory ran out',
    7: 'the words are no text',
    8: 'memory ran out'
};
