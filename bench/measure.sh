# What the scripts beside this one share: how a command is measured, and ratios.

measure() { # FILE COMMAND..: status, seconds of processor and KiB
    if ! command -v "$2" > /dev/null; then
        echo '- - -'
        return
    fi
    python3 - "$@" <<'PY'
import resource, subprocess, sys
run = subprocess.run(sys.argv[2:], stdin=open(sys.argv[1]), stdout=subprocess.DEVNULL, stderr=subprocess.DEVNULL)
used = resource.getrusage(resource.RUSAGE_CHILDREN)
print("%d %.3f %d" % (run.returncode, used.ru_utime + used.ru_stime, used.ru_maxrss))
PY
}

ratio() { # SECONDS SECONDS
    case $2 in
    -) echo - ;;
    *) awk -v a="$1" -v b="$2" 'BEGIN { printf "%.2f\n", a / (b < 0.001 ? 0.001 : b) }' ;;
    esac
}
