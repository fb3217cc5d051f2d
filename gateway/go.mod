module regd/gateway

go 1.19

require gopkg.in/yaml.v3 v3.0.1
