# Turns each entry of the event log, as `serdimko --json sel elist` prints it, into a line with a priority of syslog by its severity:
# <2> for critical, <4> for a warning, <6> for others. The variable $host is the name of the machine. docs/shipping.md says how it is used.

def priority: {critical: 2, warning: 4}[.severity // "none"] // 6;

def time: if has("timestamp") then " at \(.timestamp // "an unknown time")" else "" end;

# the sensor, what happened and the details
def words:
  [.sensor_name // "\(.sensor_type_name) sensor \(.sensor_number)", .event_words // .event, .direction, .event_details]
  | map(select(. != null)) | join(", ");

select(.object == "sel_entry")
| "<\(priority)>\($host): entry \(.record_id)\(time): "
  + if .kind == "event" then words else "record type \(.record_type), data \(.oem_data)" end
