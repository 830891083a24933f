"""Sound files of square waves: RIFF WAVE, one channel, 16 bits, 44,100 samples a second."""
from .messages import Off, On
from .pacing import FRAMES_A_BEAT

SAMPLES_A_SECOND = 44_100
MOST_BYTES = 268_435_456
LEVEL = 64
LOUDEST = 32_767
# How far a wave of the keys 0 to 11 goes in a sample, and how far it goes until it begins anew.
STEPS = (8372, 8870, 9397, 9956, 10548, 11175, 11840, 12544, 13290, 14080, 14917, 15804)
ROUND = 45_158_400
HALF = 22_579_200


def samples_a_frame(bpm):
    return 60 * SAMPLES_A_SECOND // FRAMES_A_BEAT // bpm


def is_too_long(frames, bpm):
    return 2 * frames * samples_a_frame(bpm) > MOST_BYTES


def wave_of(frames, bpm):
    """The file of the messages of frames: each changes which voices sound, and its samples follow."""
    samples, voices, begun = [], [], 0
    for messages in frames:
        for message in messages:
            if isinstance(message, On):
                step = STEPS[message.key % 12] << message.key // 12
                voices.append((message.channel, message.key, step, LEVEL * message.velocity, begun))
            elif isinstance(message, Off):
                voices = [voice for voice in voices if voice[:2] != (message.channel, message.key)]
        ended = begun + samples_a_frame(bpm)
        for at in range(begun, ended):
            levels = (level if (at - since) * step % ROUND < HALF else -level for _, _, step, level, since in voices)
            samples.append(max(-LOUDEST, min(LOUDEST, sum(levels))))
        begun = ended
    data = b''.join(sample.to_bytes(2, 'little', signed=True) for sample in samples)
    return header_of(len(data)) + data


def header_of(count):
    """The head of a file with so many bytes of samples."""
    def four(number):
        return number.to_bytes(4, 'little')
    form = four(16) + bytes([1, 0, 1, 0]) + four(SAMPLES_A_SECOND) + four(2 * SAMPLES_A_SECOND) + bytes([2, 0, 16, 0])
    return b'RIFF' + four(count + 36) + b'WAVEfmt ' + form + b'data' + four(count)
