# What the compile of a source that changes leaves in its output folder, where an old file stood each time.
package . a
for line in '' 'print x' 'print y' 'print x' 'warn old' 'fail no'; do
    file src/lib.rs "$line"
    file target/debug/a.target.lib/old old
    build
    ls target/debug/a.target.lib
    cat target/debug/a.target.lib/liba.rlib 2> /dev/null
done
