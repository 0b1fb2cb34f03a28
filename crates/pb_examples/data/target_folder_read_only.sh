# A target folder in which nothing may be made; later one in which nothing may be changed, which a build that changes
# nothing does not notice, but one after an edit does. Each time it is given back, and the build is as ever.
package . a
file src/lib.rs
mkdir target
chmod a-w target
build
chmod u+w target
build
chmod -R a-w target
build
file src/lib.rs 'print x'
build
chmod -R u+w target
build
