; ORG has no label on its line.
HERE:   ORG  100H
