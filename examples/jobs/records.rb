# Keeps records, replaces some of them, and counts what is left.
draw = Random.new(7)
words = %w[amber basalt cedar delta ember fjord granite harbour]
record = lambda do |n|
  { id: n, name: "#{words.sample(random: draw)} #{n}", tags: Array.new(draw.rand(6)) { words.sample(random: draw) + n.to_s },
    text: "x" * draw.rand(200) }
end
kept = Array.new(80_000, &record)
60_000.times { |n| kept[draw.rand(kept.size)] = record.call(n) }
puts kept.sum { |each| each[:text].size + each[:tags].size }
