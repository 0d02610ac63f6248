#!/bin/sh
# Worker K's trials are made on the machine that line K + 1 of ../hosts names; what the test needs is copied there each time.
# shellcheck disable=SC2086 # SSH may be several words
file=rotate.c test=crash.sh needs=faulty trial=${PWD##*/}
cd .. && host=$(sed -n "$((${trial##*-} % $(wc -l <hosts) + 1))p" hosts)
there="d=\$(mktemp -d) && cd \$d && tar xf - && cd $trial && timeout 60 ../$test >out.txt 2>&1; echo answer \$?; rm -r \$d"
for _ in 1 2 3; do
    case $(tar cf - $test $needs "$trial/$file" | timeout 90 ${SSH:-ssh} -o BatchMode=yes "$host" "$there") in
    'answer 0') exit 0 ;; 'answer 126' | 'answer 127') exit 127 ;; 'answer '*) exit 1 ;; esac # else no answer came back
done
exit 127 # three times none: the test has failed, and the run ends with status 8
