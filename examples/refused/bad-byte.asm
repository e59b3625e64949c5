; A number sign starts no word of a statement.
        MVI  A,#5
