<?xml version="1.0" encoding="UTF-8"?>
<!-- Writes an ODD file, or a source of TEI's, as one that odd reads (docs/tei-source.md has what becomes of what).

     xsltproc tools/cut.xsl p5subset.xml > source.odd

     Each kind of change has a line of its own at the end, with its count and where the first stands. A change behind which stands (wider),
     (narrower) or (may differ) changes what the schema accepts, and with strict no file is written where there is one.

     It needs the extension node-set of EXSLT. -->
<xsl:stylesheet version="1.0" xmlns:xsl="http://www.w3.org/1999/XSL/Transform" xmlns="http://www.tei-c.org/ns/1.0" xmlns:tei="http://www.tei-c.org/ns/1.0"
                xmlns:rng="http://relaxng.org/ns/structure/1.0" xmlns:exsl="http://exslt.org/common" exclude-result-prefixes="tei rng exsl">
  <xsl:output method="xml" encoding="UTF-8"/>
  <!-- keep: the word aside of odd takes them out and counts them; drop: they go here -->
  <xsl:param name="constraints" select="'keep'"/>
  <!-- yes: nothing is written where the schema would change -->
  <xsl:param name="strict" select="'no'"/>
  <!-- what \d becomes. all: the digits of all scripts; ascii: 0 to 9 -->
  <xsl:param name="digits" select="'all'"/>
  <!-- start words, for a file that has a schemaSpec or none -->
  <xsl:param name="start" select="''"/>

  <xsl:key name="told" match="processing-instruction('cut-told')" use="substring-before(., '|')"/>
  <xsl:key name="attDef" match="tei:attDef[not(@mode = 'change' or @mode = 'delete')]" use="concat(ancestor::tei:classSpec[1]/@ident, ' ', translate(@ident, ':', ''))"/>
  <xsl:key name="element" match="tei:elementSpec" use="@ident"/>
  <xsl:key name="class" match="tei:classSpec" use="@ident"/>
  <xsl:key name="macro" match="tei:macroSpec[not(@type = 'dt')]" use="@ident"/>
  <xsl:key name="data" match="tei:dataSpec | tei:macroSpec[@type = 'dt']" use="@ident"/>
  <xsl:key name="members" match="tei:elementSpec | tei:classSpec" use="tei:classes/tei:memberOf[not(@mode = 'delete')]/@key"/>

  <!-- The file, with what is to be told in processing instructions; and then the lines, and the file without these. -->
  <xsl:template match="/">
    <xsl:variable name="made">
      <xsl:apply-templates select="node()"/>
    </xsl:variable>
    <xsl:for-each select="exsl:node-set($made)">
      <xsl:variable name="firsts" select="//processing-instruction('cut-told')[generate-id() = generate-id(key('told', substring-before(., '|'))[1])]"/>
      <xsl:for-each select="$firsts">
        <xsl:message>
          <xsl:value-of select="concat('cut: ', substring-before(., '|'), ': ', count(key('told', substring-before(., '|'))), ', first in ', substring-after(., '|'))"/>
        </xsl:message>
      </xsl:for-each>
      <xsl:if test="$strict = 'yes' and $firsts[contains(., ')|')]">
        <xsl:message terminate="yes">
          <xsl:value-of select="concat('cut: strict: kinds of changes that would change the schema: ', count($firsts[contains(., ')|')]))"/>
        </xsl:message>
      </xsl:if>
      <xsl:choose>
        <xsl:when test="$start != '' and not(//tei:schemaSpec)">
          <schemaSpec ident="bare" start="{$start}">
            <xsl:for-each select="//*[self::tei:elementSpec or self::tei:classSpec or self::tei:macroSpec or self::tei:dataSpec]">
              <xsl:if test="not(ancestor::*[self::tei:elementSpec or self::tei:classSpec or self::tei:macroSpec or self::tei:dataSpec or not(namespace-uri() = 'http://www.tei-c.org/ns/1.0')])">
                <xsl:text>&#10;</xsl:text>
                <xsl:apply-templates select="." mode="out"/>
              </xsl:if>
            </xsl:for-each>
            <xsl:text>&#10;</xsl:text>
          </schemaSpec>
        </xsl:when>
        <xsl:otherwise>
          <xsl:apply-templates select="node()" mode="out"/>
        </xsl:otherwise>
      </xsl:choose>
    </xsl:for-each>
  </xsl:template>

  <xsl:template match="@* | node()" mode="out">
    <xsl:copy>
      <xsl:apply-templates select="@* | node()" mode="out"/>
    </xsl:copy>
  </xsl:template>
  <xsl:template match="processing-instruction('cut-told')" mode="out"/>

  <!-- What stays as it is. -->
  <xsl:template match="*" name="same">
    <xsl:copy>
      <xsl:apply-templates select="@*"/>
      <xsl:apply-templates select="@*" mode="tell"/>
      <xsl:apply-templates select="node()"/>
    </xsl:copy>
  </xsl:template>
  <xsl:template match="@* | text() | comment() | processing-instruction()">
    <xsl:copy/>
  </xsl:template>
  <xsl:template match="processing-instruction('cut-told')"/>
  <xsl:template match="@*" mode="tell"/>
  <!-- what odd passes over -->
  <xsl:template match="tei:gloss | tei:desc | tei:equiv | tei:exemplum | tei:remarks | tei:listRef | tei:model | tei:modelGrp | tei:modelSequence | tei:moduleSpec | tei:defaultVal">
    <xsl:copy-of select="."/>
  </xsl:template>

  <xsl:template name="tell">
    <xsl:param name="kind"/>
    <xsl:variable name="spec" select="ancestor-or-self::*[self::tei:elementSpec or self::tei:classSpec or self::tei:macroSpec or self::tei:dataSpec or self::tei:schemaSpec][1]"/>
    <xsl:processing-instruction name="cut-told">
      <xsl:value-of select="concat($kind, '|')"/>
      <xsl:choose>
        <xsl:when test="$spec">
          <xsl:value-of select="concat(local-name($spec), ' ', $spec/@ident)"/>
        </xsl:when>
        <xsl:otherwise>no declaration</xsl:otherwise>
      </xsl:choose>
    </xsl:processing-instruction>
  </xsl:template>

  <!-- constraints -->
  <xsl:template match="tei:constraintSpec">
    <xsl:choose>
      <xsl:when test="$constraints = 'drop'">
        <xsl:call-template name="tell">
          <xsl:with-param name="kind" select="'constraintSpec dropped'"/>
        </xsl:call-template>
      </xsl:when>
      <xsl:otherwise>
        <xsl:copy-of select="."/>
      </xsl:otherwise>
    </xsl:choose>
  </xsl:template>

  <!-- attributes that odd refuses -->
  <xsl:template match="tei:elementSpec/@prefix | tei:classSpec/@prefix | tei:macroSpec/@prefix | tei:dataSpec/@prefix | tei:moduleRef/@prefix"/>
  <xsl:template match="tei:elementSpec/@prefix | tei:classSpec/@prefix | tei:macroSpec/@prefix | tei:dataSpec/@prefix | tei:moduleRef/@prefix" mode="tell">
    <xsl:call-template name="tell">
      <xsl:with-param name="kind" select="'prefix dropped'"/>
    </xsl:call-template>
  </xsl:template>
  <xsl:template match="tei:elementSpec/@source | tei:classSpec/@source | tei:macroSpec/@source | tei:dataSpec/@source | tei:moduleRef/@source | tei:elementRef/@source | tei:classRef/@source | tei:macroRef/@source | tei:dataRef/@source"/>
  <xsl:template match="tei:elementSpec/@source | tei:classSpec/@source | tei:macroSpec/@source | tei:dataSpec/@source | tei:moduleRef/@source | tei:elementRef/@source | tei:classRef/@source | tei:macroRef/@source | tei:dataRef/@source" mode="tell">
    <xsl:call-template name="tell">
      <xsl:with-param name="kind" select="'source dropped (may differ)'"/>
    </xsl:call-template>
  </xsl:template>
  <xsl:template match="tei:memberOf/@min | tei:memberOf/@max"/>
  <xsl:template match="tei:memberOf/@min | tei:memberOf/@max" mode="tell">
    <xsl:call-template name="tell">
      <xsl:with-param name="kind" select="'min or max of memberOf dropped (may differ)'"/>
    </xsl:call-template>
  </xsl:template>
  <xsl:template match="tei:schemaSpec/tei:classRef/@include | tei:schemaSpec/tei:classRef/@except | tei:specGrp/tei:classRef/@include | tei:specGrp/tei:classRef/@except"/>
  <xsl:template match="tei:schemaSpec/tei:classRef/@include | tei:schemaSpec/tei:classRef/@except | tei:specGrp/tei:classRef/@include | tei:specGrp/tei:classRef/@except" mode="tell">
    <xsl:call-template name="tell">
      <xsl:with-param name="kind" select="'include or except of a classRef outside a content dropped (may differ)'"/>
    </xsl:call-template>
  </xsl:template>
  <xsl:template match="tei:moduleRef[@url]">
    <xsl:call-template name="tell">
      <xsl:with-param name="kind" select="'moduleRef with url dropped (narrower)'"/>
    </xsl:call-template>
  </xsl:template>
  <xsl:template match="tei:schemaSpec">
    <xsl:copy>
      <xsl:apply-templates select="@*"/>
      <xsl:if test="$start != ''">
        <xsl:attribute name="start">
          <xsl:value-of select="$start"/>
        </xsl:attribute>
      </xsl:if>
      <xsl:apply-templates select="node()"/>
    </xsl:copy>
  </xsl:template>
  <xsl:template match="tei:attDef/@usage[. = 'mwa']">
    <xsl:attribute name="usage">opt</xsl:attribute>
  </xsl:template>
  <xsl:template match="tei:attDef/@usage[. = 'mwa']" mode="tell">
    <xsl:call-template name="tell">
      <xsl:with-param name="kind" select="'usage mwa became opt'"/>
    </xsl:call-template>
  </xsl:template>

  <!-- of attributes of which one is to stand each may stand -->
  <xsl:template match="tei:attList/@org[. = 'choice']"/>
  <xsl:template match="tei:attList/@org[. = 'choice']" mode="tell">
    <xsl:call-template name="tell">
      <xsl:with-param name="kind" select="'attList of org choice became one of optional attributes (wider)'"/>
    </xsl:call-template>
  </xsl:template>
  <xsl:template match="tei:attList[@org = 'choice']//tei:attDef/@usage[. = 'req']">
    <xsl:attribute name="usage">opt</xsl:attribute>
  </xsl:template>

  <!-- references to attributes -->
  <xsl:template match="tei:attRef">
    <xsl:variable name="old" select="(@key | @name)[contains(., '.attribute.')][1]"/>
    <xsl:variable name="class">
      <xsl:choose>
        <xsl:when test="$old">
          <xsl:value-of select="substring-before($old, '.attribute.')"/>
        </xsl:when>
        <xsl:otherwise>
          <xsl:value-of select="@class"/>
        </xsl:otherwise>
      </xsl:choose>
    </xsl:variable>
    <xsl:variable name="name">
      <xsl:choose>
        <xsl:when test="$old">
          <xsl:value-of select="substring-after($old, '.attribute.')"/>
        </xsl:when>
        <xsl:otherwise>
          <xsl:value-of select="@name"/>
        </xsl:otherwise>
      </xsl:choose>
    </xsl:variable>
    <xsl:variable name="def" select="key('attDef', concat($class, ' ', translate($name, ':', '')))[1]"/>
    <xsl:variable name="outer" select="ancestor::tei:attList[last()]"/>
    <xsl:variable name="same" select="concat(@class, '|', @key, '|', @name)"/>
    <xsl:choose>
      <xsl:when test="not($def)">
        <xsl:call-template name="tell">
          <xsl:with-param name="kind" select="'attRef to an attribute that is not in this file dropped (narrower)'"/>
        </xsl:call-template>
      </xsl:when>
      <xsl:when test="$outer//tei:attDef[@ident = $def/@ident] or generate-id() != generate-id(($outer//tei:attRef[concat(@class, '|', @key, '|', @name) = $same])[1])">
        <xsl:call-template name="tell">
          <xsl:with-param name="kind" select="'attRef beside an attDef of its attribute dropped'"/>
        </xsl:call-template>
      </xsl:when>
      <xsl:otherwise>
        <xsl:call-template name="tell">
          <xsl:with-param name="kind" select="'attRef became attDef'"/>
        </xsl:call-template>
        <xsl:choose>
          <xsl:when test="ancestor::tei:attList[@org = 'choice'] and $def/@usage = 'req'">
            <attDef usage="opt">
              <xsl:apply-templates select="$def/@*[not(name() = 'usage')]"/>
              <xsl:apply-templates select="$def/node()"/>
            </attDef>
          </xsl:when>
          <xsl:otherwise>
            <xsl:apply-templates select="$def"/>
          </xsl:otherwise>
        </xsl:choose>
      </xsl:otherwise>
    </xsl:choose>
  </xsl:template>

  <!-- values of lists -->
  <xsl:template match="tei:valItem[tei:altIdent]">
    <xsl:call-template name="tell">
      <xsl:with-param name="kind" select="'altIdent of a valItem became its ident'"/>
    </xsl:call-template>
    <xsl:if test="@mode = 'change'">
      <valItem ident="{@ident}" mode="delete"/>
    </xsl:if>
    <xsl:copy>
      <xsl:copy-of select="@*"/>
      <xsl:choose>
        <xsl:when test="@mode = 'delete'"/>
        <xsl:otherwise>
          <xsl:attribute name="ident">
            <xsl:value-of select="normalize-space(tei:altIdent)"/>
          </xsl:attribute>
          <xsl:if test="@mode = 'change'">
            <xsl:attribute name="mode">add</xsl:attribute>
          </xsl:if>
        </xsl:otherwise>
      </xsl:choose>
      <xsl:apply-templates select="node()[not(self::tei:altIdent)]"/>
    </xsl:copy>
  </xsl:template>
  <xsl:template match="tei:valItem[normalize-space(@ident) = ''][not(tei:altIdent)]">
    <xsl:call-template name="tell">
      <xsl:with-param name="kind" select="'empty value of an attribute dropped (narrower)'"/>
    </xsl:call-template>
  </xsl:template>
  <xsl:template match="tei:valItem/tei:paramList">
    <xsl:call-template name="tell">
      <xsl:with-param name="kind" select="'paramList dropped'"/>
    </xsl:call-template>
  </xsl:template>
  <xsl:template match="tei:attDef/tei:valDesc">
    <xsl:call-template name="tell">
      <xsl:with-param name="kind" select="'valDesc dropped'"/>
    </xsl:call-template>
  </xsl:template>

  <!-- prose among the items -->
  <xsl:template match="tei:schemaSpec/tei:* | tei:specGrp/tei:*" priority="-0.2">
    <xsl:variable name="end" select="substring(local-name(), string-length(local-name()) - 2)"/>
    <xsl:choose>
      <xsl:when test="$end = 'pec' or $end = 'Ref' or $end = 'Grp' or self::tei:altIdent">
        <xsl:call-template name="same"/>
      </xsl:when>
      <xsl:otherwise>
        <xsl:call-template name="tell">
          <xsl:with-param name="kind" select="'prose among declarations put into remarks'"/>
        </xsl:call-template>
        <remarks>
          <xsl:call-template name="same"/>
        </remarks>
      </xsl:otherwise>
    </xsl:choose>
  </xsl:template>

  <!-- Contents. Data beside other parts is a text. -->
  <xsl:template match="tei:content//*[not(self::tei:* or self::rng:*)]" priority="2">
    <xsl:call-template name="tell">
      <xsl:with-param name="kind" select="'element of another namespace in a content dropped'"/>
    </xsl:call-template>
  </xsl:template>
  <xsl:template name="text">
    <xsl:param name="what"/>
    <xsl:call-template name="tell">
      <xsl:with-param name="kind" select="concat($what, ' (wider)')"/>
    </xsl:call-template>
    <xsl:choose>
      <xsl:when test="ancestor::tei:datatype or ancestor::tei:dataSpec or ancestor::tei:macroSpec[@type = 'dt']">
        <dataRef name="string"/>
      </xsl:when>
      <xsl:otherwise>
        <textNode/>
      </xsl:otherwise>
    </xsl:choose>
  </xsl:template>
  <!-- the parts that are no data, in the content around; and how many parts that has -->
  <xsl:template name="beside">
    <xsl:variable name="content" select="ancestor::tei:content[1]"/>
    <xsl:if test="$content[not(parent::tei:dataSpec or parent::tei:macroSpec/@type = 'dt')]">
      <xsl:if test="count($content/*[self::tei:dataRef or self::tei:valList or self::rng:*]) &gt; 1 or $content//*[self::tei:sequence or self::tei:elementRef or self::tei:classRef or self::tei:macroRef or self::tei:anyElement or self::tei:textNode or self::tei:empty or self::rng:text or self::rng:empty or self::rng:group or self::rng:interleave or self::rng:mixed or self::rng:optional or self::rng:oneOrMore or self::rng:zeroOrMore or self::rng:element or self::rng:ref[not(contains(@name, 'data.') or key('data', @name))]]">yes</xsl:if>
    </xsl:if>
  </xsl:template>
  <xsl:template match="tei:content//tei:dataRef | tei:content//tei:valList | tei:content//rng:data | tei:content//rng:value" priority="1">
    <xsl:variable name="beside">
      <xsl:call-template name="beside"/>
    </xsl:variable>
    <xsl:choose>
      <xsl:when test="$beside = 'yes'">
        <xsl:call-template name="text">
          <xsl:with-param name="what" select="'data beside other parts became textNode'"/>
        </xsl:call-template>
      </xsl:when>
      <xsl:when test="self::tei:dataRef and ((@minOccurs and not(number(@minOccurs) = 1)) or (@maxOccurs and not(number(@maxOccurs) = 1)))">
        <xsl:call-template name="tell">
          <xsl:with-param name="kind" select="'data with bounds became string (wider)'"/>
        </xsl:call-template>
        <dataRef name="string"/>
      </xsl:when>
      <xsl:when test="self::tei:dataRef">
        <xsl:call-template name="dataRef"/>
      </xsl:when>
      <xsl:when test="self::tei:valList[tei:valItem[normalize-space(@ident) = ''][not(tei:altIdent)]]">
        <xsl:call-template name="tell">
          <xsl:with-param name="kind" select="'empty value became token of length 0'"/>
        </xsl:call-template>
        <xsl:variable name="others" select="tei:valItem[not(normalize-space(@ident) = '') or tei:altIdent]"/>
        <xsl:choose>
          <xsl:when test="$others">
            <alternate>
              <xsl:copy>
                <xsl:apply-templates select="@*"/>
                <xsl:apply-templates select="$others"/>
              </xsl:copy>
              <dataRef name="token"><dataFacet name="length" value="0"/></dataRef>
            </alternate>
          </xsl:when>
          <xsl:otherwise>
            <dataRef name="token"><dataFacet name="length" value="0"/></dataRef>
          </xsl:otherwise>
        </xsl:choose>
      </xsl:when>
      <xsl:when test="self::tei:valList">
        <xsl:call-template name="same"/>
      </xsl:when>
      <xsl:when test="self::rng:data">
        <xsl:call-template name="rng"/>
        <xsl:call-template name="data">
          <xsl:with-param name="type" select="@type"/>
          <xsl:with-param name="facets" select="rng:param"/>
        </xsl:call-template>
      </xsl:when>
      <xsl:when test="normalize-space() = ''">
        <xsl:call-template name="rng"/>
        <dataRef name="token"><dataFacet name="length" value="0"/></dataRef>
      </xsl:when>
      <xsl:otherwise>
        <xsl:call-template name="rng"/>
        <valList type="closed"><valItem ident="{.}"/></valList>
      </xsl:otherwise>
    </xsl:choose>
  </xsl:template>

  <!-- the content of a datatype is data alone -->
  <xsl:template match="tei:dataSpec[not(tei:content)][not(@mode = 'change' or @mode = 'delete')]">
    <xsl:call-template name="tell">
      <xsl:with-param name="kind" select="'dataSpec without a content became string'"/>
    </xsl:call-template>
    <xsl:copy>
      <xsl:apply-templates select="@* | node()"/>
      <content><dataRef name="string"/></content>
    </xsl:copy>
  </xsl:template>
  <xsl:template match="tei:macroSpec[@type = 'dt']">
    <xsl:call-template name="tell">
      <xsl:with-param name="kind" select="'macroSpec of type dt became dataSpec'"/>
    </xsl:call-template>
    <dataSpec>
      <xsl:apply-templates select="@*[not(name() = 'type')]"/>
      <xsl:apply-templates select="@*" mode="tell"/>
      <xsl:apply-templates select="node()"/>
    </dataSpec>
  </xsl:template>
  <xsl:template match="tei:dataSpec/tei:content | tei:macroSpec[@type = 'dt']/tei:content" priority="1">
    <xsl:variable name="parts" select="*[self::tei:dataRef or self::tei:valList or self::tei:alternate or self::tei:sequence or self::tei:textNode or self::tei:empty or self::tei:macroRef or self::tei:elementRef or self::tei:classRef or self::tei:anyElement or self::rng:*]"/>
    <xsl:choose>
      <xsl:when test="count($parts) = 1 and ($parts[self::tei:textNode] or $parts[self::rng:text])">
        <xsl:copy>
          <xsl:call-template name="tell">
            <xsl:with-param name="kind" select="'text of a datatype became string'"/>
          </xsl:call-template>
          <dataRef name="string"/>
        </xsl:copy>
      </xsl:when>
      <xsl:when test="not(count($parts) = 1) or .//*[self::tei:sequence or self::tei:textNode or self::tei:empty or self::tei:macroRef or self::tei:elementRef or self::tei:classRef or self::tei:anyElement or self::rng:*[not(self::rng:choice or self::rng:data or self::rng:param or self::rng:value or self::rng:ref)]] or .//tei:alternate[(@minOccurs and not(number(@minOccurs) = 1)) or (@maxOccurs and not(number(@maxOccurs) = 1))]">
        <xsl:copy>
          <xsl:call-template name="tell">
            <xsl:with-param name="kind" select="'content of a datatype that is no data became string (wider)'"/>
          </xsl:call-template>
          <dataRef name="string"/>
        </xsl:copy>
      </xsl:when>
      <xsl:otherwise>
        <xsl:call-template name="same"/>
      </xsl:otherwise>
    </xsl:choose>
  </xsl:template>

  <!-- parts in any order -->
  <xsl:template match="tei:sequence[@preserveOrder = 'false' or @preserveOrder = '0']" name="unordered">
    <xsl:choose>
      <xsl:when test="count(*) = 2 and count(tei:elementRef[not(@maxOccurs) or @maxOccurs = '1']) = 2">
        <xsl:call-template name="tell">
          <xsl:with-param name="kind" select="'two elements in any order became both orders'"/>
        </xsl:call-template>
        <alternate>
          <xsl:apply-templates select="@minOccurs | @maxOccurs"/>
          <sequence>
            <xsl:apply-templates select="*[1]"/>
            <xsl:apply-templates select="*[2]"/>
          </sequence>
          <sequence>
            <xsl:apply-templates select="*[2]"/>
            <xsl:apply-templates select="*[1]"/>
          </sequence>
        </alternate>
      </xsl:when>
      <xsl:otherwise>
        <xsl:call-template name="tell">
          <xsl:with-param name="kind" select="'parts in any order became any number of them (wider)'"/>
        </xsl:call-template>
        <alternate minOccurs="0" maxOccurs="unbounded">
          <xsl:apply-templates select="node()"/>
        </alternate>
      </xsl:otherwise>
    </xsl:choose>
  </xsl:template>

  <!-- the members of a class one after the other -->
  <xsl:template match="tei:content//tei:classRef[@expand][not(@expand = 'alternate')]">
    <xsl:call-template name="expanded">
      <xsl:with-param name="class" select="@key"/>
      <xsl:with-param name="expand" select="@expand"/>
    </xsl:call-template>
  </xsl:template>
  <xsl:template name="expanded">
    <xsl:param name="class"/>
    <xsl:param name="expand"/>
    <xsl:choose>
      <xsl:when test="starts-with($expand, 'sequence') and key('class', $class)[not(@mode = 'change' or @mode = 'delete')]">
        <xsl:call-template name="tell">
          <xsl:with-param name="kind" select="'classRef expanded by sequence became a sequence of its members'"/>
        </xsl:call-template>
        <sequence>
          <xsl:apply-templates select="@minOccurs | @maxOccurs"/>
          <xsl:call-template name="members">
            <xsl:with-param name="class" select="$class"/>
            <xsl:with-param name="expand" select="$expand"/>
            <xsl:with-param name="include" select="normalize-space(@include)"/>
            <xsl:with-param name="except" select="normalize-space(@except)"/>
          </xsl:call-template>
        </sequence>
      </xsl:when>
      <xsl:otherwise>
        <xsl:call-template name="tell">
          <xsl:with-param name="kind" select="'classRef expanded by sequence became any number of members (wider)'"/>
        </xsl:call-template>
        <classRef key="{$class}" minOccurs="0" maxOccurs="unbounded">
          <xsl:copy-of select="@include | @except"/>
        </classRef>
      </xsl:otherwise>
    </xsl:choose>
  </xsl:template>
  <xsl:template name="members">
    <xsl:param name="class"/>
    <xsl:param name="expand"/>
    <xsl:param name="include"/>
    <xsl:param name="except"/>
    <xsl:param name="path" select="concat(' ', $class, ' ')"/>
    <xsl:for-each select="key('members', $class)">
      <xsl:variable name="word" select="concat(' ', @ident, ' ')"/>
      <xsl:choose>
        <xsl:when test="self::tei:classSpec and not(contains($path, $word))">
          <xsl:call-template name="members">
            <xsl:with-param name="class" select="@ident"/>
            <xsl:with-param name="expand" select="$expand"/>
            <xsl:with-param name="include" select="$include"/>
            <xsl:with-param name="except" select="$except"/>
            <xsl:with-param name="path" select="concat($path, @ident, ' ')"/>
          </xsl:call-template>
        </xsl:when>
        <xsl:when test="self::tei:elementSpec[not(@mode = 'delete')] and ($include = '' or contains(concat(' ', $include, ' '), $word)) and not(contains(concat(' ', $except, ' '), $word))">
          <elementRef key="{@ident}">
            <xsl:if test="contains($expand, 'Optional')">
              <xsl:attribute name="minOccurs">0</xsl:attribute>
            </xsl:if>
            <xsl:if test="contains($expand, 'Repeatable')">
              <xsl:attribute name="maxOccurs">unbounded</xsl:attribute>
            </xsl:if>
          </elementRef>
        </xsl:when>
      </xsl:choose>
    </xsl:for-each>
  </xsl:template>

  <!-- RELAX NG in contents -->
  <xsl:template name="rng">
    <xsl:call-template name="tell">
      <xsl:with-param name="kind" select="'RELAX NG became Pure ODD'"/>
    </xsl:call-template>
  </xsl:template>
  <xsl:template match="tei:content//rng:group | tei:content//rng:optional | tei:content//rng:zeroOrMore | tei:content//rng:oneOrMore">
    <xsl:call-template name="rng"/>
    <sequence>
      <xsl:if test="self::rng:optional or self::rng:zeroOrMore">
        <xsl:attribute name="minOccurs">0</xsl:attribute>
      </xsl:if>
      <xsl:if test="self::rng:zeroOrMore or self::rng:oneOrMore">
        <xsl:attribute name="maxOccurs">unbounded</xsl:attribute>
      </xsl:if>
      <xsl:apply-templates select="node()"/>
    </sequence>
  </xsl:template>
  <xsl:template match="tei:content//rng:choice">
    <xsl:call-template name="rng"/>
    <alternate>
      <xsl:apply-templates select="node()"/>
    </alternate>
  </xsl:template>
  <xsl:template match="tei:content//rng:interleave">
    <xsl:call-template name="unordered"/>
  </xsl:template>
  <xsl:template match="tei:content//rng:mixed">
    <xsl:call-template name="tell">
      <xsl:with-param name="kind" select="'RELAX NG mixed became any number of texts and parts (wider)'"/>
    </xsl:call-template>
    <alternate minOccurs="0" maxOccurs="unbounded">
      <textNode/>
      <xsl:apply-templates select="node()"/>
    </alternate>
  </xsl:template>
  <xsl:template match="tei:content//rng:text">
    <xsl:call-template name="rng"/>
    <textNode/>
  </xsl:template>
  <xsl:template match="tei:content//rng:empty">
    <xsl:call-template name="rng"/>
    <empty/>
  </xsl:template>
  <xsl:template match="tei:content//rng:notAllowed">
    <xsl:call-template name="rng"/>
    <alternate/>
  </xsl:template>
  <xsl:template match="tei:content//rng:list">
    <xsl:call-template name="text">
      <xsl:with-param name="what" select="'RELAX NG list became text'"/>
    </xsl:call-template>
  </xsl:template>
  <xsl:template match="tei:content//rng:element">
    <xsl:call-template name="tell">
      <xsl:with-param name="kind" select="'RELAX NG element became anyElement (wider)'"/>
    </xsl:call-template>
    <anyElement/>
  </xsl:template>
  <xsl:template match="tei:content//rng:attribute">
    <xsl:call-template name="tell">
      <xsl:with-param name="kind" select="'RELAX NG attribute in a content dropped (narrower)'"/>
    </xsl:call-template>
    <empty/>
  </xsl:template>
  <xsl:template match="tei:content//rng:ref">
    <xsl:variable name="class" select="substring-before(concat(@name, '_'), '_')"/>
    <xsl:variable name="beside">
      <xsl:call-template name="beside"/>
    </xsl:variable>
    <xsl:choose>
      <xsl:when test="(key('data', @name) or starts-with(@name, 'data.') or starts-with(@name, 'teidata.')) and $beside = 'yes'">
        <xsl:call-template name="text">
          <xsl:with-param name="what" select="'data beside other parts became textNode'"/>
        </xsl:call-template>
      </xsl:when>
      <xsl:when test="not(key('element', @name)) and (key('class', $class) or starts-with(@name, 'model.')) and contains(@name, '_') and not(contains(@name, '_alternation'))">
        <xsl:call-template name="rng"/>
        <xsl:call-template name="expanded">
          <xsl:with-param name="class" select="$class"/>
          <xsl:with-param name="expand" select="substring-after(@name, '_')"/>
        </xsl:call-template>
      </xsl:when>
      <xsl:otherwise>
        <xsl:call-template name="rng"/>
        <xsl:if test="not(key('element', @name) or key('macro', @name) or key('class', $class) or key('data', @name))">
          <xsl:call-template name="tell">
            <xsl:with-param name="kind" select="'RELAX NG ref to what another file declares taken by its name (may differ)'"/>
          </xsl:call-template>
        </xsl:if>
        <xsl:choose>
          <xsl:when test="key('element', @name)">
            <elementRef key="{@name}"/>
          </xsl:when>
          <xsl:when test="key('macro', @name)">
            <macroRef key="{@name}"/>
          </xsl:when>
          <xsl:when test="key('class', $class) or starts-with(@name, 'model.')">
            <classRef key="{$class}"/>
          </xsl:when>
          <xsl:when test="starts-with(@name, 'macro.')">
            <macroRef key="{@name}"/>
          </xsl:when>
          <xsl:when test="key('data', @name) or starts-with(@name, 'data.') or starts-with(@name, 'teidata.')">
            <dataRef key="{@name}"/>
          </xsl:when>
          <xsl:otherwise>
            <elementRef key="{@name}"/>
          </xsl:otherwise>
        </xsl:choose>
      </xsl:otherwise>
    </xsl:choose>
  </xsl:template>

  <!-- RELAX NG in the datatype of an attribute -->
  <xsl:template match="tei:datatype[rng:* or tei:textNode or not(*)]">
    <xsl:variable name="many" select="(rng:list/rng:oneOrMore | rng:list/rng:zeroOrMore)[count(*) = 1]"/>
    <xsl:variable name="one" select="($many/* | rng:*)[self::rng:ref or self::rng:data or self::rng:text or self::rng:choice][1]"/>
    <xsl:copy>
      <xsl:apply-templates select="@*"/>
      <xsl:if test="$many[self::rng:zeroOrMore]">
        <xsl:attribute name="minOccurs">0</xsl:attribute>
      </xsl:if>
      <xsl:if test="$many">
        <xsl:attribute name="maxOccurs">unbounded</xsl:attribute>
      </xsl:if>
      <xsl:choose>
        <xsl:when test="count(rng:*) &gt; 1 or not($one or tei:textNode or not(*)) or $one[self::rng:choice][*[not(self::rng:value)]]">
          <xsl:call-template name="tell">
            <xsl:with-param name="kind" select="'RELAX NG datatype became string (wider)'"/>
          </xsl:call-template>
          <dataRef name="string"/>
        </xsl:when>
        <xsl:when test="$one[self::rng:ref]">
          <xsl:call-template name="rng"/>
          <dataRef key="{$one/@name}"/>
        </xsl:when>
        <xsl:when test="$one[self::rng:data]">
          <xsl:call-template name="rng"/>
          <xsl:call-template name="data">
            <xsl:with-param name="type" select="$one/@type"/>
            <xsl:with-param name="facets" select="$one/rng:param"/>
          </xsl:call-template>
        </xsl:when>
        <xsl:when test="$one[self::rng:choice]">
          <xsl:call-template name="rng"/>
          <dataRef name="token">
            <xsl:attribute name="restriction">
              <xsl:for-each select="$one/rng:value">
                <xsl:if test="position() &gt; 1">|</xsl:if>
                <xsl:call-template name="quoted">
                  <xsl:with-param name="text" select="normalize-space()"/>
                </xsl:call-template>
              </xsl:for-each>
            </xsl:attribute>
          </dataRef>
        </xsl:when>
        <xsl:otherwise>
          <xsl:call-template name="tell">
            <xsl:with-param name="kind" select="'text of a datatype became string'"/>
          </xsl:call-template>
          <dataRef name="string"/>
        </xsl:otherwise>
      </xsl:choose>
    </xsl:copy>
  </xsl:template>
  <xsl:template name="quoted">
    <xsl:param name="text"/>
    <xsl:if test="$text != ''">
      <xsl:if test="contains('.\?*+{}()[]|', substring($text, 1, 1))">\</xsl:if>
      <xsl:value-of select="substring($text, 1, 1)"/>
      <xsl:call-template name="quoted">
        <xsl:with-param name="text" select="substring($text, 2)"/>
      </xsl:call-template>
    </xsl:if>
  </xsl:template>

  <!-- Datatypes. -->
  <xsl:template match="tei:dataRef" name="dataRef">
    <xsl:variable name="spec" select="key('data', @key)[tei:content[count(*) = 1]/tei:dataRef[@name][not(@restriction or *)]]"/>
    <xsl:choose>
      <xsl:when test="@ref and not(@key or @name)">
        <xsl:call-template name="tell">
          <xsl:with-param name="kind" select="'dataRef by ref became string (wider)'"/>
        </xsl:call-template>
        <dataRef name="string"/>
      </xsl:when>
      <xsl:when test="@key and not(@name) and (@restriction or tei:dataFacet) and $spec">
        <xsl:call-template name="tell">
          <xsl:with-param name="kind" select="'facets beside a key: the key became the name of its type'"/>
        </xsl:call-template>
        <xsl:call-template name="data">
          <xsl:with-param name="type" select="$spec/tei:content/tei:dataRef/@name"/>
          <xsl:with-param name="restriction" select="@restriction"/>
          <xsl:with-param name="facets" select="tei:dataFacet"/>
        </xsl:call-template>
      </xsl:when>
      <xsl:when test="@key and not(@name) and (@restriction or tei:dataFacet)">
        <xsl:call-template name="tell">
          <xsl:with-param name="kind" select="'facets beside a key dropped (wider)'"/>
        </xsl:call-template>
        <dataRef key="{@key}"/>
      </xsl:when>
      <xsl:when test="@name and not(@key)">
        <xsl:variable name="pattern">
          <xsl:if test="contains(concat(@restriction, tei:dataFacet[@name = 'pattern']/@value), '\') or contains(concat(@restriction, tei:dataFacet[@name = 'pattern']/@value), '[')">
            <xsl:call-template name="pattern">
              <xsl:with-param name="text" select="(@restriction | tei:dataFacet[@name = 'pattern']/@value)[1]"/>
            </xsl:call-template>
          </xsl:if>
        </xsl:variable>
        <xsl:choose>
          <xsl:when test="contains($known, concat(' ', @name, ' ')) and ($pattern = '' or $pattern = (@restriction | tei:dataFacet[@name = 'pattern']/@value)[1]) and not(@restriction and tei:dataFacet) and not(@ref) and (not(tei:dataFacet) or (count(tei:dataFacet) = count(tei:dataFacet[not(@name = preceding-sibling::tei:dataFacet/@name)][@name = 'pattern' or contains(@name, 'ength') or contains(@name, 'Inclusive')]) and not(contains(' boolean decimal ', concat(' ', @name, ' ')))))">
            <xsl:call-template name="same"/>
          </xsl:when>
          <xsl:otherwise>
            <xsl:call-template name="data">
              <xsl:with-param name="type" select="@name"/>
              <xsl:with-param name="restriction" select="@restriction"/>
              <xsl:with-param name="facets" select="tei:dataFacet"/>
            </xsl:call-template>
          </xsl:otherwise>
        </xsl:choose>
      </xsl:when>
      <xsl:otherwise>
        <xsl:copy>
          <xsl:apply-templates select="@*[not(name() = 'ref')]"/>
          <xsl:apply-templates select="@*" mode="tell"/>
          <xsl:apply-templates select="node()"/>
        </xsl:copy>
      </xsl:otherwise>
    </xsl:choose>
  </xsl:template>

  <xsl:variable name="known"> string normalizedString token anyURI NMTOKEN Name NCName ID IDREF language boolean integer nonNegativeInteger positiveInteger decimal </xsl:variable>
  <xsl:variable name="texts"> string normalizedString token anyURI NMTOKEN Name NCName ID IDREF language </xsl:variable>
  <xsl:variable name="numbers"> integer nonNegativeInteger positiveInteger </xsl:variable>
  <xsl:variable name="zone">(Z|[+\-]((0[0-9]|1[0-3]):[0-5][0-9]|14:00))?</xsl:variable>
  <xsl:variable name="year">-?([1-9][0-9]{3,}|0([1-9][0-9]{2}|0([1-9][0-9]|0[1-9])))</xsl:variable>
  <xsl:variable name="day">((0[13578]|1[02])-(0[1-9]|[12][0-9]|3[01])|(0[469]|11)-(0[1-9]|[12][0-9]|30)|02-(0[1-9]|[12][0-9]))</xsl:variable>
  <xsl:variable name="time">(([01][0-9]|2[0-3]):[0-5][0-9]:[0-5][0-9](\.[0-9]+)?|24:00:00(\.0+)?)</xsl:variable>
  <xsl:variable name="seconds">[0-9]+(\.[0-9]+)?S</xsl:variable>
  <xsl:variable name="hours" select="concat('T([0-9]+H([0-9]+M)?(', $seconds, ')?|[0-9]+M(', $seconds, ')?|', $seconds, ')')"/>
  <xsl:variable name="days" select="concat('([0-9]+D(', $hours, ')?|', $hours, ')')"/>

  <!-- the lexical form of a type, where odd has it not -->
  <xsl:template name="lexical">
    <xsl:param name="type"/>
    <xsl:choose>
      <xsl:when test="$type = 'double' or $type = 'float'">[+\-]?([0-9]+(\.[0-9]*)?|\.[0-9]+)([Ee][+\-]?[0-9]+)?|-?INF|NaN</xsl:when>
      <xsl:when test="$type = 'date'"><xsl:value-of select="concat($year, '-', $day, $zone)"/></xsl:when>
      <xsl:when test="$type = 'dateTime'"><xsl:value-of select="concat($year, '-', $day, 'T', $time, $zone)"/></xsl:when>
      <xsl:when test="$type = 'dateTimeStamp'"><xsl:value-of select="concat($year, '-', $day, 'T', $time, substring-before($zone, ')?'), ')')"/></xsl:when>
      <xsl:when test="$type = 'time'"><xsl:value-of select="concat($time, $zone)"/></xsl:when>
      <xsl:when test="$type = 'gYear'"><xsl:value-of select="concat($year, $zone)"/></xsl:when>
      <xsl:when test="$type = 'gYearMonth'"><xsl:value-of select="concat($year, '-(0[1-9]|1[0-2])', $zone)"/></xsl:when>
      <xsl:when test="$type = 'gMonth'"><xsl:value-of select="concat('--(0[1-9]|1[0-2])', $zone)"/></xsl:when>
      <xsl:when test="$type = 'gMonthDay'"><xsl:value-of select="concat('--', $day, $zone)"/></xsl:when>
      <xsl:when test="$type = 'gDay'"><xsl:value-of select="concat('---(0[1-9]|[12][0-9]|3[01])', $zone)"/></xsl:when>
      <xsl:when test="$type = 'duration'"><xsl:value-of select="concat('-?P([0-9]+Y([0-9]+M)?', $days, '?|[0-9]+M', $days, '?|', $days, ')')"/></xsl:when>
      <xsl:when test="$type = 'dayTimeDuration'"><xsl:value-of select="concat('-?P', $days)"/></xsl:when>
      <xsl:when test="$type = 'yearMonthDuration'">-?P([0-9]+Y([0-9]+M)?|[0-9]+M)</xsl:when>
      <xsl:when test="$type = 'hexBinary'">([0-9A-Fa-f]{2})*</xsl:when>
    </xsl:choose>
  </xsl:template>
  <!-- the type of odd that holds all texts of another -->
  <xsl:template name="nearest">
    <xsl:param name="type"/>
    <xsl:choose>
      <xsl:when test="contains(' unsignedLong unsignedInt unsignedShort unsignedByte ', concat(' ', $type, ' '))">nonNegativeInteger</xsl:when>
      <xsl:when test="contains(' long int short byte negativeInteger nonPositiveInteger ', concat(' ', $type, ' '))">integer</xsl:when>
      <xsl:when test="$type = 'ENTITY'">NCName</xsl:when>
      <xsl:when test="$type = 'QName' or $type = 'NOTATION'">Name</xsl:when>
      <xsl:when test="contains(' NMTOKENS IDREFS ENTITIES base64Binary ', concat(' ', $type, ' '))">token</xsl:when>
      <xsl:otherwise>string</xsl:otherwise>
    </xsl:choose>
  </xsl:template>
  <xsl:template name="least">
    <xsl:param name="type"/>
    <xsl:choose>
      <xsl:when test="$type = 'int'">-2147483648</xsl:when>
      <xsl:when test="$type = 'short'">-32768</xsl:when>
      <xsl:when test="$type = 'byte'">-128</xsl:when>
    </xsl:choose>
  </xsl:template>
  <xsl:template name="most">
    <xsl:param name="type"/>
    <xsl:choose>
      <xsl:when test="$type = 'int'">2147483647</xsl:when>
      <xsl:when test="$type = 'short'">32767</xsl:when>
      <xsl:when test="$type = 'byte'">127</xsl:when>
      <xsl:when test="$type = 'unsignedInt'">4294967295</xsl:when>
      <xsl:when test="$type = 'unsignedShort'">65535</xsl:when>
      <xsl:when test="$type = 'unsignedByte'">255</xsl:when>
      <xsl:when test="$type = 'negativeInteger'">-1</xsl:when>
      <xsl:when test="$type = 'nonPositiveInteger'">0</xsl:when>
    </xsl:choose>
  </xsl:template>

  <!-- A dataRef of a type, with a restriction or with facets (dataFacet, or param of RELAX NG). -->
  <xsl:template name="data">
    <xsl:param name="type"/>
    <xsl:param name="restriction" select="/.."/>
    <xsl:param name="facets" select="/.."/>
    <xsl:variable name="lexical">
      <xsl:call-template name="lexical">
        <xsl:with-param name="type" select="$type"/>
      </xsl:call-template>
    </xsl:variable>
    <xsl:variable name="least">
      <xsl:call-template name="least">
        <xsl:with-param name="type" select="$type"/>
      </xsl:call-template>
    </xsl:variable>
    <xsl:variable name="most">
      <xsl:call-template name="most">
        <xsl:with-param name="type" select="$type"/>
      </xsl:call-template>
    </xsl:variable>
    <xsl:variable name="name">
      <xsl:choose>
        <xsl:when test="contains($known, concat(' ', $type, ' '))">
          <xsl:value-of select="$type"/>
        </xsl:when>
        <xsl:when test="$lexical != ''">token</xsl:when>
        <xsl:otherwise>
          <xsl:call-template name="nearest">
            <xsl:with-param name="type" select="$type"/>
          </xsl:call-template>
        </xsl:otherwise>
      </xsl:choose>
    </xsl:variable>
    <xsl:variable name="patterns" select="$restriction | $facets[@name = 'pattern'][@value]/@value | $facets[@name = 'pattern'][not(@value)]"/>
    <xsl:variable name="marked">
      <xsl:if test="$patterns">
        <xsl:call-template name="pattern">
          <xsl:with-param name="text" select="string($patterns[1])"/>
        </xsl:call-template>
      </xsl:if>
    </xsl:variable>
    <xsl:variable name="pattern">
      <xsl:choose>
        <xsl:when test="$patterns">
          <xsl:value-of select="translate($marked, '&#xE0FE;&#xE0FF;', '')"/>
        </xsl:when>
        <xsl:otherwise>
          <xsl:value-of select="$lexical"/>
        </xsl:otherwise>
      </xsl:choose>
    </xsl:variable>
    <xsl:variable name="lengths" select="$facets[@name = 'length' or @name = 'minLength' or @name = 'maxLength'][contains($texts, concat(' ', $type, ' '))][not(@name = preceding-sibling::*/@name)]"/>
    <xsl:variable name="bounds" select="$facets[contains('minInclusive maxInclusive minExclusive maxExclusive', @name)][contains($numbers, concat(' ', $name, ' '))][not(@name = preceding-sibling::*/@name)][string(number(concat(@value, self::rng:param))) != 'NaN' and not(contains(concat(@value, self::rng:param), '.')) and string-length(concat(@value, self::rng:param)) &lt; 16]"/>
    <xsl:variable name="given" select="concat(' ', $bounds[1]/@name, ' ', $bounds[2]/@name, ' ', $bounds[3]/@name)"/>
    <xsl:if test="not(contains($known, concat(' ', $type, ' ')))">
      <xsl:call-template name="tell">
        <xsl:with-param name="kind">
          <xsl:value-of select="concat($type, ' became ', $name)"/>
          <xsl:if test="$lexical != '' and not($patterns)"> with a pattern</xsl:if>
          <xsl:if test="contains(' date dateTime dateTimeStamp ENTITY long unsignedLong ', concat(' ', $type, ' ')) or ($lexical != '' and $patterns) or ($lexical = '' and $least = '' and $most = '' and $type != 'ENTITY')"> (wider)</xsl:if>
        </xsl:with-param>
      </xsl:call-template>
    </xsl:if>
    <xsl:choose>
      <xsl:when test="contains($marked, '&#xE0FF;')">
        <xsl:call-template name="tell">
          <xsl:with-param name="kind" select="'escapes or subtraction in a pattern became a wider class (wider)'"/>
        </xsl:call-template>
      </xsl:when>
      <xsl:when test="contains($marked, '&#xE0FE;')">
        <xsl:call-template name="tell">
          <xsl:with-param name="kind" select="'digits of all scripts became 0 to 9 in a pattern (may differ)'"/>
        </xsl:call-template>
      </xsl:when>
      <xsl:when test="$patterns and $marked != string($patterns[1])">
        <xsl:call-template name="tell">
          <xsl:with-param name="kind" select="'escapes in a pattern written out'"/>
        </xsl:call-template>
      </xsl:when>
    </xsl:choose>
    <xsl:if test="count($patterns) &gt; 1 or count($facets) &gt; count($lengths | $bounds | $facets[@name = 'pattern'])">
      <xsl:call-template name="tell">
        <xsl:with-param name="kind" select="'facets that odd has not dropped (wider)'"/>
      </xsl:call-template>
    </xsl:if>
    <dataRef name="{$name}">
      <xsl:variable name="extra" select="$least != '' or $most != ''"/>
      <xsl:if test="($patterns or $lexical != '') and not($lengths or $bounds or $extra)">
        <xsl:attribute name="restriction">
          <xsl:value-of select="$pattern"/>
        </xsl:attribute>
      </xsl:if>
      <xsl:if test="($patterns or $lexical != '') and ($lengths or $bounds or $extra)">
        <dataFacet name="pattern" value="{$pattern}"/>
      </xsl:if>
      <xsl:if test="$least != '' and not(contains($given, ' min'))">
        <dataFacet name="minInclusive" value="{$least}"/>
      </xsl:if>
      <xsl:if test="$most != '' and not(contains($given, ' max'))">
        <dataFacet name="maxInclusive" value="{$most}"/>
      </xsl:if>
      <xsl:for-each select="$lengths | $bounds">
        <xsl:variable name="value" select="concat(@value, self::rng:param)"/>
        <!-- the bound itself, counted in; beside one of the type that is narrower it says nothing -->
        <xsl:variable name="own" select="number($value) + (@name = 'minExclusive') - (@name = 'maxExclusive')"/>
        <xsl:choose>
          <xsl:when test="starts-with(@name, 'min') and @name != 'minLength' and $least != '' and $own &lt; $least">
            <dataFacet name="minInclusive" value="{$least}"/>
          </xsl:when>
          <xsl:when test="starts-with(@name, 'max') and @name != 'maxLength' and $most != '' and $own &gt; $most">
            <dataFacet name="maxInclusive" value="{$most}"/>
          </xsl:when>
          <xsl:when test="contains(@name, 'Exclusive')">
            <dataFacet name="{substring(@name, 1, 3)}Inclusive" value="{$own}"/>
          </xsl:when>
          <xsl:otherwise>
            <dataFacet name="{@name}" value="{$value}"/>
          </xsl:otherwise>
        </xsl:choose>
      </xsl:for-each>
    </dataRef>
  </xsl:template>

  <!-- Patterns. What is written wider is marked by U+E0FF, what is written with 0 to 9 alone by U+E0FE. -->
  <xsl:variable name="every">&#9;&#10;&#13; -&#x10FFFF;</xsl:variable>
  <xsl:variable name="beyond">&#x80;-&#x10FFFF;</xsl:variable>
  <xsl:variable name="no-space">!-&#x10FFFF;</xsl:variable>
  <xsl:variable name="decimal">0-9&#x660;-&#x669;&#x6F0;-&#x6F9;&#x966;-&#x96F;&#x9E6;-&#x9EF;&#xA66;-&#xA6F;&#xAE6;-&#xAEF;&#xB66;-&#xB6F;&#xBE7;-&#xBEF;&#xC66;-&#xC6F;&#xCE6;-&#xCEF;&#xD66;-&#xD6F;&#xE50;-&#xE59;&#xED0;-&#xED9;&#xF20;-&#xF29;&#x1040;-&#x1049;&#x1369;-&#x1371;&#x17E0;-&#x17E9;&#x1810;-&#x1819;&#xFF10;-&#xFF19;&#x1D7CE;-&#x1D7FF;</xsl:variable>
  <xsl:variable name="separators">&#x20;&#xA0;&#x1680;&#x2000;-&#x200A;&#x2028;&#x2029;&#x202F;&#x205F;&#x3000;</xsl:variable>
  <xsl:variable name="controls">&#9;&#10;&#13;&#x7F;-&#x9F;&#xAD;&#x200B;-&#x200F;&#x202A;-&#x202E;&#x2060;-&#x206F;&#xE000;-&#xF8FF;&#xFEFF;&#xFFF9;-&#xFFFB;</xsl:variable>
  <xsl:variable name="punctuation">!-#%-*,-/:;?@\[-\]_\{\}</xsl:variable>
  <xsl:variable name="symbols">$+&lt;-&gt;\^`|~</xsl:variable>
  <xsl:variable name="first">A-Z_a-z&#xC0;-&#xD6;&#xD8;-&#xF6;&#xF8;-&#x2FF;&#x370;-&#x37D;&#x37F;-&#x1FFF;&#x200C;&#x200D;&#x2070;-&#x218F;&#x2C00;-&#x2FEF;&#x3001;-&#xD7FF;&#xF900;-&#xFDCF;&#xFDF0;-&#xFFFD;&#x10000;-&#xEFFFF;</xsl:variable>
  <xsl:variable name="later" select="concat('\-.0-9&#xB7;&#x300;-&#x36F;&#x203F;&#x2040;', $first)"/>

  <!-- The characters of an escape as members of a class: all of them and more (high), or some of them (low). -->
  <xsl:template name="set">
    <xsl:param name="of"/>
    <xsl:param name="side"/>
    <xsl:variable name="ascii">
      <xsl:choose>
        <xsl:when test="$of = 'L'">A-Za-z</xsl:when>
        <xsl:when test="$of = 'Lu'">A-Z</xsl:when>
        <xsl:when test="$of = 'Ll'">a-z</xsl:when>
        <xsl:when test="$of = 'N'">0-9</xsl:when>
        <xsl:when test="$of = 'P'"><xsl:value-of select="$punctuation"/></xsl:when>
        <xsl:when test="$of = 'Pc'">_</xsl:when>
        <xsl:when test="$of = 'Pd'">\-</xsl:when>
        <xsl:when test="$of = 'Ps'">(\[\{</xsl:when>
        <xsl:when test="$of = 'Pe'">)\]\}</xsl:when>
        <xsl:when test="$of = 'Po'">!-#%-'*,./:;?@\\</xsl:when>
        <xsl:when test="$of = 'S'"><xsl:value-of select="$symbols"/></xsl:when>
        <xsl:when test="$of = 'Sm'">+&lt;-&gt;|~</xsl:when>
        <xsl:when test="$of = 'Sc'">$</xsl:when>
        <xsl:when test="$of = 'Sk'">\^`</xsl:when>
        <xsl:when test="$of = 'w'"><xsl:value-of select="concat('0-9A-Za-z', $symbols)"/></xsl:when>
      </xsl:choose>
    </xsl:variable>
    <xsl:choose>
      <xsl:when test="$of = 's'"><xsl:text>&#9;&#10;&#13;&#x20;</xsl:text></xsl:when>
      <xsl:when test="$of = 'S-'"><xsl:value-of select="$no-space"/></xsl:when>
      <xsl:when test="($of = 'd' or $of = 'Nd') and $digits = 'ascii'">0-9&#xE0FE;</xsl:when>
      <xsl:when test="$of = 'd' or $of = 'Nd'"><xsl:value-of select="$decimal"/></xsl:when>
      <xsl:otherwise>
        <xsl:text>&#xE0FF;</xsl:text>
        <xsl:choose>
          <xsl:when test="$of = 'Z' or $of = 'Zs'"><xsl:value-of select="$separators"/><xsl:if test="$side = 'high'">&#x180E;&#x200B;</xsl:if></xsl:when>
          <xsl:when test="$of = 'C' and $side = 'low'"><xsl:value-of select="$controls"/></xsl:when>
          <xsl:when test="$of = 'C'">&#9;&#10;&#13;&#x7F;-&#x10FFFF;</xsl:when>
          <xsl:when test="$of = 'Cc'">&#9;&#10;&#13;&#x7F;-&#x9F;</xsl:when>
          <xsl:when test="$of = 'i' and $side = 'low'">:A-Z_a-z</xsl:when>
          <xsl:when test="$of = 'i'"><xsl:value-of select="concat(':', $first)"/></xsl:when>
          <xsl:when test="$of = 'c' and $side = 'low'">\-.0-9:A-Z_a-z</xsl:when>
          <xsl:when test="$of = 'c'"><xsl:value-of select="concat(':', $later)"/></xsl:when>
          <xsl:when test="$of = 'W-' and $side = 'low'"><xsl:value-of select="concat($punctuation, $separators, $controls)"/></xsl:when>
          <xsl:when test="(contains($of, '-') or starts-with($of, 'Is')) and $side = 'low'"/>
          <xsl:when test="contains($of, '-') or starts-with($of, 'Is')"><xsl:value-of select="$every"/></xsl:when>
          <xsl:when test="$side = 'low'"><xsl:value-of select="$ascii"/></xsl:when>
          <xsl:otherwise><xsl:value-of select="concat($ascii, $beyond)"/></xsl:otherwise>
        </xsl:choose>
      </xsl:otherwise>
    </xsl:choose>
  </xsl:template>

  <!-- a pattern from outside of a class on -->
  <xsl:template name="pattern">
    <xsl:param name="text"/>
    <xsl:variable name="front" select="substring-before(concat(translate($text, '[', '\'), '\'), '\')"/>
    <xsl:variable name="rest" select="substring($text, string-length($front) + 1)"/>
    <xsl:variable name="e" select="substring($rest, 2, 1)"/>
    <xsl:value-of select="$front"/>
    <xsl:choose>
      <xsl:when test="$rest = ''"/>
      <xsl:when test="starts-with($rest, '[^')">
        <xsl:call-template name="class">
          <xsl:with-param name="text" select="substring($rest, 3)"/>
          <xsl:with-param name="side" select="'low'"/>
        </xsl:call-template>
      </xsl:when>
      <xsl:when test="starts-with($rest, '[')">
        <xsl:call-template name="class">
          <xsl:with-param name="text" select="substring($rest, 2)"/>
          <xsl:with-param name="side" select="'high'"/>
        </xsl:call-template>
      </xsl:when>
      <xsl:when test="contains('pPdDsSwWiIcC', $e) and $e != ''">
        <xsl:variable name="of">
          <xsl:choose>
            <xsl:when test="contains('pP', $e)"><xsl:value-of select="substring-before(substring-after($rest, '{'), '}')"/></xsl:when>
            <xsl:otherwise><xsl:value-of select="translate($e, 'DSWIC', 'dswic')"/></xsl:otherwise>
          </xsl:choose>
        </xsl:variable>
        <xsl:variable name="not" select="contains('PDSWIC', $e)"/>
        <xsl:variable name="set">
          <xsl:call-template name="set">
            <xsl:with-param name="of" select="$of"/>
            <xsl:with-param name="side" select="concat(substring('low', 1, 3 * $not), substring('high', 1, 4 * not($not)))"/>
          </xsl:call-template>
        </xsl:variable>
        <xsl:choose>
          <xsl:when test="translate($set, '&#xE0FE;&#xE0FF;', '') = ''"><xsl:value-of select="concat('[', $set, $every, ']')"/></xsl:when>
          <xsl:otherwise><xsl:value-of select="concat('[', substring('^', 1, 1 * $not), $set, ']')"/></xsl:otherwise>
        </xsl:choose>
        <xsl:call-template name="pattern">
          <xsl:with-param name="text" select="substring($rest, 3 + contains('pP', $e) * (string-length($of) + 2))"/>
        </xsl:call-template>
      </xsl:when>
      <xsl:otherwise>
        <xsl:call-template name="single">
          <xsl:with-param name="e" select="$e"/>
        </xsl:call-template>
        <xsl:call-template name="pattern">
          <xsl:with-param name="text" select="substring($rest, 3)"/>
        </xsl:call-template>
      </xsl:otherwise>
    </xsl:choose>
  </xsl:template>

  <!-- one character behind a backslash -->
  <xsl:template name="single">
    <xsl:param name="e"/>
    <xsl:choose>
      <xsl:when test="$e = 'n'"><xsl:text>&#10;</xsl:text></xsl:when>
      <xsl:when test="$e = 'r'"><xsl:text>&#13;</xsl:text></xsl:when>
      <xsl:when test="$e = 't'"><xsl:text>&#9;</xsl:text></xsl:when>
      <xsl:when test="contains('.\?*+{}()[]|-^', $e)"><xsl:value-of select="concat('\', $e)"/></xsl:when>
      <xsl:otherwise><xsl:value-of select="$e"/></xsl:otherwise>
    </xsl:choose>
  </xsl:template>

  <!-- a pattern from within a class on; last: char behind a character, dash behind the sign of a range -->
  <xsl:template name="class">
    <xsl:param name="text"/>
    <xsl:param name="side"/>
    <xsl:param name="made"/>
    <xsl:param name="last"/>
    <xsl:variable name="c" select="substring($text, 1, 1)"/>
    <xsl:variable name="e" select="substring($text, 2, 1)"/>
    <xsl:variable name="behind" select="substring($text, 3, 1)"/>
    <xsl:variable name="taken" select="starts-with($text, '-[')"/>
    <xsl:choose>
      <xsl:when test="$c = ''">
        <xsl:value-of select="concat('[', substring('^', 1, 1 * ($side = 'low')), $made)"/>
      </xsl:when>
      <xsl:when test="$c = ']' or $taken">
        <xsl:variable name="away" select="substring-before(substring-after($text, '-['), ']')"/>
        <xsl:variable name="members">
          <xsl:choose>
            <xsl:when test="$taken and $away = ':' and starts-with($made, '&#xE0FF;:')"><xsl:value-of select="concat('&#xE0FF;', substring($made, 3))"/></xsl:when>
            <xsl:otherwise><xsl:value-of select="$made"/></xsl:otherwise>
          </xsl:choose>
        </xsl:variable>
        <xsl:if test="$taken">&#xE0FF;</xsl:if>
        <xsl:choose>
          <xsl:when test="translate($members, '&#xE0FE;&#xE0FF;', '') = ''"><xsl:value-of select="concat('[', $members, $every, ']')"/></xsl:when>
          <xsl:otherwise><xsl:value-of select="concat('[', substring('^', 1, 1 * ($side = 'low')), $members, ']')"/></xsl:otherwise>
        </xsl:choose>
        <xsl:call-template name="pattern">
          <xsl:with-param name="text" select="substring($text, 2 + $taken * (string-length($away) + 3))"/>
        </xsl:call-template>
      </xsl:when>
      <xsl:otherwise>
        <xsl:variable name="set" select="$c = '\' and contains('pPdDsSwWiIcC', $e)"/>
        <xsl:variable name="range" select="$c = '-' and $last = 'char' and $e != ']' and not($e = '\' and contains('pPdDsSwWiIcC', $behind))"/>
        <xsl:variable name="of" select="substring-before(substring-after($text, '{'), '}')"/>
        <xsl:variable name="one">
          <xsl:choose>
            <xsl:when test="$set">
              <xsl:call-template name="set">
                <xsl:with-param name="of">
                  <xsl:choose>
                    <xsl:when test="$e = 'p'"><xsl:value-of select="$of"/></xsl:when>
                    <xsl:when test="$e = 'P'"><xsl:value-of select="concat($of, '-')"/></xsl:when>
                    <xsl:when test="contains('DSWIC', $e)"><xsl:value-of select="concat($e, '-')"/></xsl:when>
                    <xsl:otherwise><xsl:value-of select="$e"/></xsl:otherwise>
                  </xsl:choose>
                </xsl:with-param>
                <xsl:with-param name="side" select="$side"/>
              </xsl:call-template>
            </xsl:when>
            <xsl:when test="$c = '\'">
              <xsl:call-template name="single">
                <xsl:with-param name="e" select="$e"/>
              </xsl:call-template>
            </xsl:when>
            <xsl:when test="$c = '-' and not($range)">\-</xsl:when>
            <xsl:when test="$c = '['">\[</xsl:when>
            <xsl:otherwise><xsl:value-of select="$c"/></xsl:otherwise>
          </xsl:choose>
        </xsl:variable>
        <xsl:call-template name="class">
          <xsl:with-param name="text" select="substring($text, 2 + ($c = '\') + ($set and contains('pP', $e)) * (string-length($of) + 2))"/>
          <xsl:with-param name="side" select="$side"/>
          <xsl:with-param name="made" select="concat($made, $one)"/>
          <xsl:with-param name="last">
            <xsl:choose>
              <xsl:when test="$range">dash</xsl:when>
              <xsl:when test="$set or $last = 'dash'">set</xsl:when>
              <xsl:otherwise>char</xsl:otherwise>
            </xsl:choose>
          </xsl:with-param>
        </xsl:call-template>
      </xsl:otherwise>
    </xsl:choose>
  </xsl:template>
</xsl:stylesheet>
