#!/bin/sh
# Builds the peers that answer over a pipe: FOLDER/echo, FOLDER/write and FOLDER/fts5, and where
# their libraries are there, FOLDER/xapian and FOLDER/lucene.
#   bench/finds/peers.sh FOLDER
folder=${1:?name the folder}
here=$(dirname "$0")
mkdir -p "$folder" || exit 1
cc -O2 "$here/echo.c" -o "$folder/echo" || exit 1
cc -O2 "$here/write.c" -o "$folder/write" || exit 1
cc -O2 "$here/fts5.c" -lsqlite3 -o "$folder/fts5" || exit 1
c++ -O2 "$here/xapian.cc" -lxapian -o "$folder/xapian" || rm -f "$folder/xapian"
# Of Lucene a process of Java stands for the program: one thread beside those that compile.
classes=$(cd "$folder" && pwd)/classes
jar=$(ls /usr/share/java/lucene-core-*.jar | tail -n 1)
if javac -cp "$jar" -d "$classes" "$here/Lucene.java"; then
    printf '#!/bin/sh\nexec java -XX:+UseSerialGC -Xmx2g -cp "%s:%s" Lucene "$@"\n' \
        "$jar" "$classes" > "$folder/lucene"
    chmod 755 "$folder/lucene"
else
    rm -f "$folder/lucene"
fi
