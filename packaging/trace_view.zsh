#compdef trace_view
# Completion for zsh: formats, files.
_arguments \
  '1:format:((dot\:"a graph for Graphviz" html\:"one page" xml\:"the form of the Alloy Analyzer" json\:"data"))' \
  '2:file:_files'
