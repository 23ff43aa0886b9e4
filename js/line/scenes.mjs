/* The scenes: a script, how many of its events have happened when a scene begins, what it says there, and at its end. */
const TO_PLAY = 'good 5\ntick\n';
const CUE = 'break-send 020a2024434c495030303031d3\n';
const PLAY = 'break-send 02021001ef\n';

export const SCENES = [
  {
    name: 'lost-answer', title: 'An answer is lost', begin: 32,
    script: `${TO_PLAY}down\nlose-up\ntimeout\nround\ntick\ndown\nup\n`,
    text: 'The server has just put CLIP0001, a commercial, on the air. Its answer is on the way back, and will be lost. Watch what the automation does.',
    end: 'It did not send PLAY again. It asked for the state: the cue was gone, so the commercial had gone to air. It is reported, once.',
  },
  {
    name: 'lost-command', title: 'A command is lost', begin: 31,
    script: `${TO_PLAY}lose-down\ntimeout\nround\nround\n`,
    text: 'The automation has sent PLAY. It will be lost, so nothing goes to air, and to the automation this looks just like a lost answer. Watch how it tells them apart.',
    end: 'It asked for the state: the cue was still there, so PLAY had never come. Only then it sent PLAY again.',
  },
  {
    name: 'copied', title: 'A command comes twice', begin: 31,
    script: `${TO_PLAY}down-copy\ndown\nup\nup\nround 2\n`,
    text: 'The automation has sent PLAY once. The line makes two of it. Watch what the second one does.',
    end: 'The first PLAY took the cue with it. The second one found nothing cued, and aired nothing.',
  },
  {
    name: 'late', title: 'A late answer, and a kill', begin: 32, example: 'late.txt',
    text: 'The answer to PLAY will come after its time-out, and be heard for another question. Later the automation is killed, and goes on from its journal. Watch the report.',
    end: 'An answer to the wrong question changed no count, and the killed automation asked before it played on.',
  },
  {
    name: 'repeat', title: 'If one just repeats', begin: 32,
    script: `${TO_PLAY}down\nlose-up\n${CUE}down\nready\n${PLAY}down\n`,
    text: 'The same lost answer. But now another automation, a simpler one, sends what had no answer again: the cue, and PLAY. So a premise is left: one controller.',
    end: 'CLIP0001 went to air twice, and the advertiser would pay twice. This is what the promise forbids, and why an answer that is lost must not repeat a command.',
  },
  {
    name: 'forged', title: 'A forged ACK', begin: 31,
    script: `${TO_PLAY}lose-down\nbreak-answer 04\nup\n`,
    text: 'PLAY will be lost, and noise on the line looks like its ACK. In plain mode the automation trusts a receipt, so a premise is left: no forged answer.',
    end: 'An event is reported that never aired. Confirm mode is for lines with such noise: the next scene.',
  },
  {
    name: 'confirm', title: 'The same in confirm mode', begin: 37, confirming: true,
    script: 'good 6\ntick\nlose-down\nstray-ack\ntimeout\nround\nround\n',
    text: 'PLAY will be lost, and noise looks like its ACK. In confirm mode the automation trusts no receipt.',
    end: 'The ACK changed nothing: the automation asked for the state, and sends PLAY again.',
  },
];
