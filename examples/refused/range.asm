; The value is no byte.
        MVI  A,256
