; The quote inside the text must be written twice.
        DB   'It's 8080'
