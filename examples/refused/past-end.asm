; The second byte would stand past FFFFH.
        ORG  0FFFFH
        MVI  A,1
