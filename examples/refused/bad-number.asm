; 9 is no digit of a binary number.
        MVI  A,19B
