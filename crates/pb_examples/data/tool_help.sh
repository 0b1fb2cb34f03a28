# Help goes to the output, also where there are no words, and so does the version.
pb_tool build --help > help
echo "status $?"
grep -c -e '--manifest-path' help
sed -n '/^Variables/,$p' help
pb_tool --help > help
echo "status $?"
grep -c Usage help
pb_tool session -h > help
echo "status $?"
grep -c Usage help
pb_tool > help
echo "status $?"
grep -c Usage help
pb_tool --version
echo "status $?"
pb_tool -V
# What a plan and a removal mean by each status.
for command in plan clean; do
    pb_tool $command --help > help
    echo "status $?"
    sed -n '/^Only records/p; /^Status/,$p' help
done
