# Completion for fish: formats, files.
complete -c trace_view -f -n __fish_use_subcommand -a dot -d "a graph for Graphviz"
complete -c trace_view -f -n __fish_use_subcommand -a html -d "one page"
complete -c trace_view -f -n __fish_use_subcommand -a xml -d "the form of the Alloy Analyzer"
complete -c trace_view -f -n __fish_use_subcommand -a json -d "data"
