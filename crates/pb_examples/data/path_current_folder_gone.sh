# The current folder is not there any more.
top=$PWD
mkdir gone
cd gone || exit
rmdir "$top/gone"
pb_tool build 2> "$top/said"
echo "status $?"
cat "$top/said"
