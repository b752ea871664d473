#!/usr/bin/env python3
"""Writes stdin and stdout of this program: requests of `scram_vectors.py`, `message_vectors.py` and `label_vectors.py`, and their
answers."""
import os

import label_vectors
import message_vectors
import scram_vectors

HERE = os.path.dirname(os.path.realpath(__file__))


def main():
    pairs = [*scram_vectors.pairs(), *message_vectors.pairs(), *label_vectors.pairs()]
    with open(os.path.join(HERE, 'stdin'), 'w', encoding='utf-8') as requests, open(os.path.join(HERE, 'stdout'), 'w', encoding='utf-8') as answers:
        for request, answer in pairs:
            requests.write(request + '\n')
            answers.write(answer + '\n')


if __name__ == '__main__':
    main()
